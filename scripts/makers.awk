# Of the sources of a crate: tells each way beside the functions `makers` by which somebody outside makes a value of the type `type`. Such
# a way is a function that anybody calls and that answers one, a public field or constant, or a derived trait that makes one.

function names(text, word) {
    return text ~ ("(^|[^A-Za-z0-9_])" word "([^A-Za-z0-9_]|$)")
}

function fault(text) {
    print FILENAME ":" FNR ": " text
}

# What a function answers stands behind the last arrow of its head.
function look_at_head(    answer, name) {
    answer = head
    if (!sub(/.*-> /, "", answer)) {
        return
    }
    if (!names(answer, type) && !(names(block, type) && names(answer, "Self"))) {
        return
    }
    name = head
    sub(/^ *(pub )?(const |unsafe )*fn /, "", name)
    sub(/[^A-Za-z0-9_].*/, "", name)
    if (!index(" " makers " ", " " name " ")) {
        fault("the public function '" name "' answers a '" type "'")
    }
}

FNR == 1 { block = ""; in_block_head = 0; in_head = 0; in_type = 0; in_derives = 0; derives = "" }
/^ *\/\// || /^$/ { next }

# The head of an `impl` may take several lines. Each function of a trait's `impl` is public.
/^impl/ { block = ""; in_block_head = 1 }
in_block_head { block = block " " $0; in_block_head = !/\{$/; next }
/^}/ { block = ""; in_type = 0 }

/^ *pub (const |unsafe )*fn / || (/^ *(const |unsafe )*fn / && block ~ / for /) { head = ""; in_head = 1 }
in_head {
    is_clause = /^ *(where|requires|ensures)( |$)/
    if (!is_clause) {
        head = head " " $0
    }
    if (is_clause || /[{;]$/) {
        in_head = 0
        look_at_head()
    }
}

/^#\[derive/ { derives = ""; in_derives = 1 }
in_derives { derives = derives " " $0; in_derives = !/\)\]$/; next }
/^pub (struct|enum) / {
    if (names($0, type)) {
        in_type = 1
        found = 1
        if (names(derives, "Clone") || names(derives, "Copy") || names(derives, "Default")) {
            fault("'" type "' derives a trait that makes one")
        }
    }
    derives = ""
}
in_type && (/^ +pub / || /\(pub /) { fault("a field of '" type "' is public") }

# A constant, or a field of another type, that anybody reads and that is one, or holds one.
/^ *pub (const|static) [A-Z]/ && names($0, type) { fault("a public constant is a '" type "'") }
!in_type && /^ +pub [a-z_0-9]+: / && names($0, type) { fault("a public field is a '" type "'") }

END {
    if (!found) {
        print "the type '" type "' is not where it was"
    }
}
