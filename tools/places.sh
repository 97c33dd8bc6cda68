#!/bin/sh
# Prints the lines of src/ that may be places of older design, point by point, and how many there are of each.
# docs/DESIGN-PASS.md says which of them are places.
cd "$(dirname "$0")/.." || exit 1

show() { # show NAME PATTERN
    echo "## $1"
    grep -rnE --include='*.rt' "$2" crates/*/src | grep -vE '^[^:]*:[0-9]*: *(//|ghost|requires|ensures)'
}

count() { # count NAME PATTERN
    n=$(show "$1" "$2" | tail -n +2 | wc -l)
    echo "$n  $1"
}

each() { # each COMMAND
    "$1" '1 enums, flags and numbers in place of kinds' \
        '^(pub(\(crate\))? )?enum |\b(cause|number|refusal|field): u8|Result<usize, u8>'
    "$1" '2 functions by name, to look for twins' \
        '^ *(pub(\(crate\))? )?(const )?fn '
    "$1" '3 loops, and places picked by a number' \
        '^ *(for|while|loop)\b|[a-z_]\[[a-z_.]+\]'
    "$1" '4 conversions, copies and comparisons' \
        'fn number\(|\.number\(\)| as u(8|16|32|64)|=> (Some|Ok|Err)\(|\b(is_empty|contains)\(.*\b(return|\{)'
    "$1" '5 parameters that travel together' \
        'heap: Global|rt: &HostRuntime|rest: &|order: &|rigs: usize'
    "$1" '6 buffers, lengths and tables' \
        '\[[^]]*; [A-Z0-9_]+\]|: &.*\[[A-Za-z0-9]+\]|used: usize'
    "$1" '7 switches and tables of functions' \
        '\bmatch |\bdyn |Box<|: fn\('
}

case "${1-}" in
    --count) each count ;;
    '') each show ;;
    *) echo "usage: tools/places.sh [--count]" >&2; exit 2 ;;
esac
