#!/bin/sh
# Counts, point by point, the places in src/ that are written in an older form. `tools/places.sh` asks the working tree, `tools/places.sh COMMIT` a commit;
# `-l` before that lists the places.
list=
if [ "$1" = -l ]; then list=yes; shift; fi
commit=$1

places() {
    title=$1
    pattern=$2
    found=$(git grep -nE "$pattern" $commit -- 'crates/*/src/*.rt' | grep -vE ':[0-9]+: *(//|ghost|requires|ensures)')
    if [ -z "$found" ]; then n=0; else n=$(printf '%s\n' "$found" | wc -l); fi
    printf '%-72s %5d\n' "$title" "$n"
    if [ -n "$list" ] && [ "$n" != 0 ]; then printf '%s\n' "$found" | sed 's/^/    /'; fi
}

places '1 own enums of the shape of Option or Result, declared' 'enum (Pass|Checked|Outcome|Judged|Marked|Placed|Found)\b'
places '1   the same, made or matched' '\b(Pass|Checked|Outcome|Judged|Marked|Placed|Found)::'
places '1 kinds as numbers' '(\b|\()(CLASS|IMPLEMENTS|FIELD|LOCAL|USES|BUILDS|MEMBER|REFERS)\b'
places '1 answers of reasons or flags as numbers' '(return|=>) [0-9]+[,;]|plain\([0-9]+\)|Refused\([0-9]+,|number(:|\() *[0-9a-z]+,?$|(number|order|head|added) != 0'
places '1 numbers that stand for none' '\b(NONE|EMPTY|NO_OWNER|UNASKED)\b|65535'
places '2 functions with the name of one in another crate' '^(pub |pub\(crate\) )?fn (wide|low|type_markers|type_absent|type_named|type_fits|class_bytes|view_bytes|class_word|view_word|count_in|nth_in|overlay|known|verdict_of|first_named|any_named|second_named|fill|clear|copy|move_up|move_down|found_at|found|read|put|write|faulted|head_of|class_number|kept_at|name_met)\b'
places '3 loops that count or walk by hand' '^ *(.[a-z]+: )?(while|loop)\b'
places '4 conversions by `as`' '\bas (u8|u16|u32|u64|usize)\b'
places '4 own conversions, order and equality' 'fn (wide|low|least|either|same_name|same_part|long)\b'
places '5 parameters that travel together: the starts, the classes, the bytes' '^ *(starts: &(mut )?\[u16\]|classes: Classes|view: View|memo: &mut \[u16\]|markers: &\[u8\]|facts: &(mut )?\[u8\]|lanes: &(mut )?\[u8\]|bytes: &.*\[u8\]),?$'
places '6 a place or an end beside a slice' '(bytes|out|row|text|group): &(mut )?\[u8\],.*(at|from|to|n|k|end): usize'
places '7 steps picked by a flag or a number' '(builds|up): bool|sheet: u8|rule == [0-9]+'
clauses=$(git grep -hE '^ *requires (indexed|views|accepted|falls|known|groups|judging|passing|kept|there|sized|at_record|short|printed|heads)\b' $commit -- 'crates/*/src/*.rt' | wc -l)
printf '%-72s %5d\n' '5 clauses that repeat a fact about the same values' "$clauses"
