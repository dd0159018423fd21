#!/bin/sh
# Counts places in crates/*/src that older forms leave; docs/DESIGN-PASS.md says what each point means. With -l the places are listed.
# Run at the repository's root.
list() {
    name=$1
    shift
    if [ "$LIST" = yes ]; then
        echo "## $name"
        grep -nE "$@" crates/*/src/*.rt
    else
        echo "$name: $(grep -hE "$@" crates/*/src/*.rt | wc -l)"
    fi
}
LIST=no
[ "$1" = -l ] && LIST=yes
list "1 own enums" '^(pub(\(crate\))? )?enum '
list "1 Option or Result taken apart by hand" '^ *(None => (false|true|0|None|Err\(|refused)|Err\(_\) => |Err\((fault|broken)\) => (Err|return Err)|Ok\((\(\)|[a-z_]+)\) => Ok\(|Some\([a-z_]+\) => (Ok\(|[a-z_]+ == ))|let (Some|Ok)\([^)]*\) = .* else|if let Err\('
list "1 numbers for kinds or refusals" '[( ](kind|rule|option|operation|datastore|outcome|layer|cause|session|refusal)[a-z_]*: u(8|16|32)\b|plain\((number|[0-9]+)\)|-> u32$|fn from_number'
list "1 flags" '^ +(pub(\(crate\))? )?[a-z_]+: bool,'
list "3 loops by index" '^ *while |for [a-z_0-9]+ in [^{]*\.\.'
list "4 comparisons, orders, conversions, printing" '^impl(<[^>]*>)? (PartialEq|Eq|PartialOrd|Ord|Clone|Copy|Debug|fmt::Debug|Hash|Default)\b|fn (before|equal|same|from_number|number|report|to_form|from_form|to_bytes|from_bytes)\b'
list "5 facts asked for" '^ *requires '
list "5 ghost arguments of a device" 'D\.Device\.[a-z]+ D\.Device'
list "6 buffers and lengths" '^ +(pub(\(crate\))? )?[a-z_]+: \[.*; *[A-Z0-9]+\],|^ +(pub(\(crate\))? )?(count|length|used|next): usize'
list "7 switches" '^ *match (self|rule|option|kind|outcome|event|operation|call)\b'
