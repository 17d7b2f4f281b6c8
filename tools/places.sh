#!/bin/bash
# Counts places by pattern in the sources of the crates, as docs/DESIGN-PASS.md tells them. With -l each place is printed too.
cd "$(dirname "$0")/.." || exit 1
list=$1

# Prints the name of a pattern and how many lines of the sources have it.
count() {
    local found
    found=$(grep -rnE --include='*.rt' -e "$2" crates/*/src)
    echo "$1: $(printf '%s' "$found" | grep -c .)"
    if [ "$list" = -l ]; then printf '%s\n' "$found" | sed 's/^/    /'; fi
}

echo "1 own kinds of results"
count "enums" '^(pub )?enum '
count "enums and structs that derive Clone and Copy alone" 'derive\(Clone, Copy\)'
count "bool in a signature or a field" '(: bool[,)]|-> bool)'
count "numbers for kinds" '(kind: u8|whence: i32|-> u8)'
count "a refusal matched only to be handed on or wrapped" '(if let Err\((e|why)\) =|Err\((e|why|_)\) =>)'
echo "2 twins"
count "a method that only calls the one of the same name" '(MemoryStream|ScriptedStream)::[a-z]+\(self'
count "an origin written out" 'layers: 0'
count "methods of a kind of quote" 'fn (row_len|encode|row_of|decode|one_byte|two_bytes)\('
echo "3 loops by hand"
count "while" '\bwhile\b'
count "a number raised by hand" '(saturating_add\(1\)|used \+ 1|[a-z] \+= )'
echo "4 written by hand"
count "printing" '(print|println|eprintln)!?\('
count "a copy made for printing" 'let ([a-z]+) = (\*\1|[a-z]+\.\1);'
count "Display" '^impl.*Display for'
count "From and TryFrom" 'impl.* (From|TryFrom)<'
count "a conversion by a function" 'fn (whence_of|or_empty|command_of|row_of|named|number)\b'
echo "5 facts and parameters that go together"
count "a premise or promise of order" '(RawStream\.ready|InMemory (self|result)|InScript (self|result)|SkipReady|Sound \(S)'
count "requires" 'requires \{'
count "the runtime handed on" 'rt: &HostRuntime'
echo "6 buffers"
count "a length or a place beside a slice" '(len|used): usize,'
count "a buffer of a fixed size" '\[0(u8|xee|xeeu8); [0-9]+\]'
count "a Vec by reference" '&Vec<'
echo "7 switches"
count "a switch on what to do next" 'match (slot|step|turn)'
echo "8 proofs"
echo "files of answers: $(find crates -path '*/proofs/*' -name Answers.antt | grep -vc -e /out/ -e /target/)"
echo "answers: $(find crates -path '*/proofs/*' -name Answers.antt | grep -v -e /out/ -e /target/ | xargs cat | grep -cE '^pub [^ ]+ : goal\.')"
echo "lemmas: $(ls crates/*/proofs/*.antt | xargs grep -hE '^(pub )?[A-Za-z_-]+ : ' | grep -c .)"
echo "lines of proofs: $(find crates -path '*/proofs/*' -name '*.antt' | grep -v -e /out/ -e /target/ | xargs cat | wc -l)"
