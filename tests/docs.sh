#!/usr/bin/env bash
# Whether the documents say what stands in the repository (docs/check), and whether docs/check notices what it is for: on a copy, a
# contract gets a premise that the README's claim leaves out, a claim or the headline leaves one out, a clause moves, a contract gets
# another name, a planted text or an edit's changes, edits stand elsewhere, a line is too wide, an item is public for nobody.
set -euo pipefail
. "$(dirname "$0")/saying.sh"
"$top/docs/check"
copy=$work/copy kept=$work/kept
mkdir "$copy"
(cd "$top" && git ls-files -z --cached --others --exclude-standard | tar --null --ignore-failed-read -T - -c) | tar -x -C "$copy"
git -C "$copy" init -q
noticed=0
planted=()

# plant WHAT FILE OLD NEW MESSAGE: gives a file of the copy a new text in the place of the old one. Faults that don't concern each
# other are planted together, since each look of docs/check takes seconds.
plant() {
    local file=$copy/$2
    [ -e "$kept/$2" ] || { mkdir -p "$(dirname "$kept/$2")" && cp "$file" "$kept/$2"; }
    OLD=$3 NEW=$4 python3 - "$file" <<'END'
import os, sys
text = open(sys.argv[1], encoding="utf-8").read()
if text.count(os.environ["OLD"]) < 1:
    sys.exit(f"{sys.argv[1]} has no {os.environ['OLD']}")
open(sys.argv[1], "w", encoding="utf-8").write(text.replace(os.environ["OLD"], os.environ["NEW"], 1))
END
    planted+=("$1" "$5")
}

# notices: whether docs/check refuses the copy, and says so of each fault that was planted since the last call. Takes the faults back.
notices() {
    local at said
    if said=$("$copy/docs/check" 2>&1); then
        echo "docs/check notices none of these: ${planted[*]}"
        exit 1
    fi
    for ((at = 0; at < ${#planted[@]}; at += 2)); do
        grep -q "${planted[at + 1]}" <<<"$said" || { echo "docs/check doesn't notice that ${planted[at]}: $said"; exit 1; }
        noticed=$((noticed + 1))
    done
    planted=()
    cp -r "$kept/." "$copy/"
    rm -r "$kept"
}

plant 'a contract has one premise more than the claim says' crates/replica_events/src/history.rt \
    'IsLocal x → IsLocal y →' 'IsLocal x → IsLocal y → NoRestart before 1 →' "claim 3.*NoRestart before 1"
plant 'a premise stands in the record that a contract ends in' crates/replica_events/specs/Agreement.antt \
    'IsOfTaken q → Gives' 'IsOfTaken q → HasReplica world i → Gives' 'claim 1.*HasReplica world i'
plant 'a claim no longer says a premise' README.md 'same index and pages, and every request that asks for no delta' \
    'same index and pages, and every request' \
    "claim 1 doesn't say 'every request that asks for no delta'"
plant 'the headline no longer says its premise' README.md 'two replicas that have learnt' 'two replicas that have taken' \
    "claim 'the headline' doesn't say 'two replicas that have learnt the same harvests since their last restart'"
plant 'a claim cites a contract and leaves out its premises' README.md '"redirects_name_the_nearest.timegates"' \
    '"redirects_name_the_nearest.alone"' 'claim 2 cites redirects_name_the_nearest.alone, whose premise'
plant 'a quoted line is another' crates/harvest_lattice/specs/Knowledge.antt \
    'other.revision ≤ h.revision' 'other.revision < h.revision' 'has no line'
plant 'a planted text stands no longer' crates/timemap_reader/src/role.rt \
    '!lists(&rel, b"self")' '!lists(&rel, b"SELF")' 'stands there 0 times'
plant 'the text of an edit stands no longer' crates/text_fields/edits/zero_in_front.edit \
    'rest.is_empty()' 'rest.is_full()' 'text_fields/zero_in_front.edit: .*stands there 0 times'
plant 'a sentence is too long' docs/DEFINITIONS.md 'The notation: `ℕ` is a number, ' \
    "The notation is this$(printf ', and %s' {1..20}): \`ℕ\` is a number, " 'at line .* has .* words'
plant 'a command of scripts has another form' examples/README.md '| `sendfrom I N` |' '| `sendfrom N I` |' \
    "the table of commands isn't as in"
plant 'a crate of the toolchain in the program has no notice' crates.txt 'text_fields: itoa memchr' 'text_fields: itoa memchr regex' \
    'lack what is in the program: .*regex'
plant 'an index leaves out a file of its folder' bench/README.md '`held.c`' 'the former' 'bench/README.md: held.c isn.t named'
plant 'a crate stands above what it uses' crates/README.md $'`url_texts` |\n| texts of the web | `link_format`, `timemap_reader`' \
    $'`timemap_reader` |\n| texts of the web | `link_format`, `url_texts`' 'timemap_reader stands above link_format, which it uses'
plant 'a limit of the settings is another' docs/SETTINGS.md '1 to 60,000' '1 to 6,000' 'no row says that `wishes` holds 1 to 60,000'
plant 'a key has two rows' docs/SETTINGS.md $'| `ready` |' $'| `agent` | 1 to 256 | | |\n| `ready` |' 'the tables of keys names `agent` 2 times'
plant 'the manual page leaves out a key' deploy/aggregator.1 '.BR agent ", " ready' '.B agent' 'SETTINGS names `ready` 0 times'
plant 'a reply of a gate is another' docs/API.md '| 404 | `no such page` |' '| 410 | `no such page` |' "the replies of a gate aren't as in"
plant 'a word of the glossary has another type' docs/GLOSSARY.md '`Cursor` of `replica_exchange`' '`Cursors` of `replica_world`' \
    "'cursor': replica_world defines no Cursors"
plant 'a word is defined and not in the glossary' docs/OPERATING.md 'A *gate* answers' 'A *wicket* answers' "\\*wicket\\* isn't in docs/GLOSSARY.md"
plant 'a file of the product is too long' web/page.css '.archive8' "$(printf '\n%.0s' {1..500} && echo .archive8)" 'web/page.css: it has .* lines'
plant 'an item is lent to nobody' crates/harvest_lattice/src/ordered.rt 'pub(crate) fn count_below' 'pub fn count_below' \
    '`count_below` is pub, and no other crate reaches it'
plant 'a module is on no map' crates/harvest_lattice/src/lib.rt '`shelves`' '`drawers`' "doesn't say what the module .shelves. is for"
plant 'a paragraph is too wide' README.md 'Here are seven claims, each with the contract that carries it.' \
    'Here are seven claims, each with the contract that carries it, which is one that the prover has to find met, whatever the input.' \
    'over 120 columns'
plant 'a line of a proof is too wide' crates/timegate/proofs/Replies.antt 'use ' "-- $(printf 'x%.0s' {1..220})
use " 'is over 220 columns'
plant 'a picture is shown nowhere' docs/OPERATING.md '![The readers' '[The readers' 'no document shows it'
notices

plant 'a claim cites a clause with one premise more' README.md '"deliveries_in_any_order.again"' \
    '"deliveries_in_any_order.repeated"' 'claim 3 cites deliveries_in_any_order.repeated, whose premise'
plant 'a contract is called by another name' crates/text_fields/src/decimals.rt 'pub fn write_decimal' 'pub fn put_decimal' \
    "PROVED.md: the contracts aren't as the sources have them"
plant 'an edit changes nothing' crates/text_fields/edits/lines_end_at_cr.edit "'\\r'" "'\\n'" 'lines_end_at_cr.edit: it changes nothing'
plant 'a key stands elsewhere than in the code' docs/MIGRATING.md $'| `pause` |' $'| `workers` | | |\n| `pause` |' 'the table of keys names `workers` 2 times'
plant 'a test has no row' tests/README.md '| `alerts` | The' '| `alarms` | The' "tests/README.md: the tables aren't as counted"
plant 'a script of the pages is another' web/page.js "'use strict'" "'use no strict'" 'index.html has other hashes'
notices

plant 'a claim leaves out a premise' README.md ', with no restart of it in between' '' \
    "claim 3 doesn't say 'with no restart of it in between'"
plant 'a comment says something else' crates/memento_index/src/laws.rt 'There is exactly one last memento' 'There are two last mementos' \
    "PROVED.md: the contracts aren't as the sources have them"
plant 'keys stand in another order' deploy/aggregator.1 '.BR agent ", " ready' '.BR ready ", " agent' "isn't in the order of Key"
notices

plant 'a premise is waived' docs/premises.txt '= with no restart of it in between' '= -' 'deliveries_in_any_order.again waives'
notices

mv "$copy/crates/text_fields/edits" "$copy/crates/text_fields/must-fail"
said=$("$copy/docs/check" 2>&1) && { echo "docs/check doesn't notice that edits stand elsewhere"; exit 1; }
for fault in 'move it to crates/text_fields/edits/' 'crates/text_fields: 0 edits are too few'; do
    grep -q "$fault" <<<"$said" || { echo "docs/check doesn't say '$fault': $said"; exit 1; }
    noticed=$((noticed + 1))
done
echo "the documents say what stands there, and docs/check notices $noticed of $noticed faults that were planted"
