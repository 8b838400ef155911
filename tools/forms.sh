#!/bin/sh
# Lists the places of each form in src/ of a commit (or of the work tree, with no argument), a count for each.
# usage: sh tools/forms.sh [COMMIT]; with LIST=1 in the environment the places are printed too.
of="$1"
places() {
    if [ -n "$LIST" ]; then
        git grep -nE "$2" $of -- 'crates/*/src/*.rt'
    fi
    printf '%4d  %s\n' "$(git grep -nE "$2" $of -- 'crates/*/src/*.rt' | wc -l)" "$1"
}
places '1 enums' '^ *(pub(\([a-z]+\))? )?enum '
places '1 arms and lets that match an Err or a None' 'Err\([^=]*\) =>|let Ok\(|let Some\(.*else|None =>'
places '1 numbers for kinds and layers' '(network|contract): u8|Layer\((u64|1|2)\)|(asked|code): u8'
places '1 a state beside a value' '^ +(pub(\(crate\))? )?state: '
places '3 loops over indices, and while' '^ *(for [a-z_]+ in [^ ]*\.\.|while )'
places '3 counters stepped by hand' '^ *[a-z_]+ (\+|-)= 1;'
places '3 first-match loops that return from a for' '^ {8,16}return (Some\(|true|false|i;)'
places '4 conversion, order, equality and printing by hand' 'fn (code|is_same|is_before|are_same|print_(total|refusal|value))\b'
places '6 arrays of a fixed size in structs' '^ +(pub(\(crate\))? )?[a-z_]+: \[.*; ([0-9]+|[A-Z_]+)\],'
places '6 look-ups with a test of the index' 'if (at|seat|i|place) <|if \(?node as usize\)? <|>= self\.(slots\.len\(\)|count)'
places '7 closures, and functions that take one' '\|[a-z_, ():&0-9]+\| |\(\|\| |<F: Fn'
