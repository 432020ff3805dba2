#!/bin/bash
# Counts the places of the design pass in src/ and proofs/: `bash tools/design_counts.sh` for the numbers, `.. list` for the lines.
# docs/DESIGN-PASS.md says what each count is of. Run at the top of a checkout; crates/*/out is left out.
src() { find crates/*/src -name '*.rt' | sort; }
count() { # TITLE PATTERN
  local n; n=$(src | xargs grep -nE "$2" | wc -l)
  printf '%-64s %4d\n' "$1" "$n"
  [ "$list" = list ] && src | xargs grep -nE "$2" | sed 's/^/    /'
}
list=$1
echo '1  own Options and Results, flags, numbers for kinds and refusals'
count '   a refusal by number: a field, an error, a parameter, an answer' 'number: u8[,) ]|Result<[^>]*, u8>|\(u8, usize\)'
count '   a flag in a struct' '^ +(pub |pub\(crate\) )?[a-z_]+: bool,'
count '   a function that answers false where it did nothing' '^\) -> bool$'
count '   a letter for a kind: a field' '^ +pub letter: (u8|char),'
count '   a reading that answers None for what is refused' 'fn of\(item: Item\) -> Option'
echo '2  twins'
count '   a function or a type of a name that another one has' 'fn (worked_[a-z]+|executions_convert|explained|examine[a-z_]*|come|write_many|settle_at|withdraw_at|first_misfit|first_mislock|read_case|read_evidence|write_case|write_evidence|(allowed|unfinished|refused)_by|as_run|as_certificate|read_records|read_items|perform|drain|comes|passes|case|evidence|(case|evidence)_file)\('
count '   a table of waiting writes; a fault made of a fault; a program' 'struct Row |^impl From<(Of|Form)|^fn main\(rt: HostRuntime\) -> anyhow'
echo '3  loops that count an index by hand'
count '   while, and for over numbers' '^ *(.[a-z_]+: )?(while .*\{|for [a-z_]+ in [^ ]*\.\.[^ ]* \{)$'
count '   recursion over a slice' 'newest\(older'
echo '4  equality, order, copying, conversion, printing by hand'
count '   an empty record or item written out' 'const [A-Z_]+: (Record|Item) = (Record|Item) \{'
count '   an answer passed on by a match' 'Ok\((\(\)|[a-z]+)\) => Ok\(|Err\([a-z_]+\) => (return )?Err\('
count '   an item, or what it says, made by hand' "letter: b'|fn encoded\("
count '   a name reckoned by hand' '\* 64 \+|512 \+ '
count '   words for an enum or a number, in a function of their own' 'fn (explained|[a-z]+_meaning|meaning|kind_name|front|(allowed|unfinished|refused)_by)\('
echo '5  facts that are repeated, parameters that travel together'
n=0; for c in crates/*/; do k=$(find $c/src -name '*.rt' | xargs grep -hE '^ +requires' | sed -E 's/^ +requires ([a-z_]+ )?\{/{/' | sort | uniq -c | awk '$1>=3{s+=$1}END{print s+0}'); n=$((n+k)); done
printf '%-64s %4d\n' '   a requires that stands three times or more in its crate' $n
n=$(src | xargs cat | tr -d '\n' | grep -oE 'out: &mut \[[A-Za-z0-9]+\], *(mut )?at: usize' | wc -l)
printf '%-64s %4d\n' '   a buffer and the place in it, as two parameters' $n
n=$(src | xargs cat | tr -d '\n' | grep -oE 'docket: &mut Docket<K>, *held: &m?u?t? ?\[' | wc -l)
printf '%-64s %4d\n' '   a docket and the slots beside it' $n
count '   a table of memory as a bare array' 'memory: (&|&mut )?\[u16; 64\]'
echo '6  fixed buffers, parallel arrays'
count '   an array in a type or a signature' '^[^/]*(: |-> |mut )(&mut |&)?\[[A-Za-z0-9<>]+; [0-9_]+\]'
echo '7  switches on a step'
count '   a rule called, and its break turned into its fault' '^ +return Err\(FormFault::'
count '   a match on a call, a direction or a kind' 'match (call|direction) \{|is_certificate\((items|evidence)\) \{'
echo '8  proofs'
printf '%-64s %4d\n' '   files of answers' $(find crates/*/proofs -name Answers.antt | wc -l)
printf '%-64s %4d\n' '   lines of them' $(find crates/*/proofs -name Answers.antt | xargs cat | wc -l)
printf '%-64s %4d\n' '   lines of invariants' $(find crates/*/proofs -name Invariants.antt | xargs cat | wc -l)
printf '%-64s %4d\n' '   lines of lemmas' $(find crates/*/proofs -maxdepth 1 -name '*.antt' | xargs cat | wc -l)
