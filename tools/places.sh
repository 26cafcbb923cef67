#!/usr/bin/env bash
# Lists the candidates of docs/DESIGN-PASS.md in src/, point by point; 'tools/places.sh count' prints how many lines each command gives.
set -uo pipefail
cd "$(git rev-parse --show-toplevel)"

find_lines() {
    local name=$1 pattern=$2 lines
    lines=$(grep -nE "$pattern" crates/*/src/*.rt)
    if [ "$mode" = count ]; then
        echo "$name: $(grep -c . <<<"$lines")"
    else
        echo "== $name"
        echo "$lines"
    fi
}

mode=${1-list}
find_lines "1 enums" '^ *(pub(\(crate\))? )?enum '
find_lines "1 numbers" '^(pub )?const [A-Z_]+: (u8|u16|u32|usize)'
find_lines "1 matched by hand" 'Err\(_\) =>|unreachable\(\)|None => false|_ => false|None => None'
find_lines "1 answers, options and bools" '\) -> (Answer|bool|Option<.*>|Result<Option<.*)$'
find_lines "2 functions" '^ *(pub(\(crate\))? )?(extern "C" )?fn '
find_lines "3 loops" '^ *(for .* in .*|while .*|.*\bloop) \{$'
find_lines "4 made, read and printed by hand" 'fn (new|number|word|name|[a-z]+_name|[a-z]+_word|decode|is_below|show_[a-z]+|[a-z]+_of|[a-z]+_by|link_to|kind|eq|cmp)\b'
find_lines "4 types without == and Debug" '^#\[derive\((Clone, Copy|Clone, Copy, Debug|Drop|Debug, Drop)\)\]'
find_lines "5 lent parts" '^ *scheme: &mut S,|scheme: &mut S[,)]'
find_lines "5 facts" '(ensures|requires) (sixteen|manned|did|runs|sizes|same) \{|requires \{ Manned'
find_lines "6 arrays and lent room" ': &mut \[|: \[[A-Za-z<>]+; ?[0-9]+\]'
find_lines "7 steps" 'match .*\b(request|kind|ask|name|task|call)\b.* \{$'
find_lines "7 functions as values" '\bFn(Once|Mut)?\(|\bdyn |: fn\('
