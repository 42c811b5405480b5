#!/usr/bin/env python3
"""Edits definitions of document 01, one for each kind of line and field, and of document 02's statements and day's numbers, one for each rule, and looks that
theorems fall with each: the prover must refuse the crate that is named, and nothing below it. That is a crate that a demand stands on, with
its theorems, worked examples and promises of code, or a table of worked examples (crates/cases), where something must fall in that table. All crates below are
copied with it and proved anew as far as the definition reaches; what it does not reach is taken over from what `rt all check` proved (tools/copies.py), which comes
first. One check for each processor is made at a time (RT_JOBS says otherwise). The last line is 'N passed, M failed'.

  tools/definitions.py                  all of them
  tools/definitions.py gpc: 'a day,'    those that have one of these words in what is edited, in the file or in the crate that must fall

A fall counts only if the first that the prover says is that a fact fails. That the crates are proved without the edit is `rt ci`'s, which comes first.
"""
import concurrent.futures
import pathlib
import re
import sys
import tempfile
import time

from copies import PARTS, Sources, complaints, is_fact, is_refused, jobs

# The judge of statements up to a file's end; and what would be said there of a statement whose sums were tested, but not heeded.
LAST = """{before}unfoldable pub judge_on : Spots → ℕ → Stage → List Record → Judged
judge_on p k top [] = refused 50 k 0
judge_on p k top (no_record ∷ rs) = refused 50 k 0
judge_on p k top (movement_is x ∷ rs) = refused 50 k 0
judge_on p k top (head_is x ∷ rs) = on_said k x λ h. judge_on p (suc k) (within k h []) rs
judge_on p k (within j h ms) [] = {taken}
"""
TAKEN = """abbrev pub taken : Statement → Said Statement → Judged
taken s (got t) = accepted (t ∷ [])
taken s (no n off) = accepted (s ∷ [])

"""

# What is edited, and what would be wrong; the file of crates/paper/specs, or of the specs of the crate before a colon, what it says and would
# say; and the crate that must fall, with cases the one table that is proved there.
WRONG = [
    # ---- reading: lines
    (
        "the ends of lines, read",
        "CR LF would be two ends",
        "Lines",
        "(pick (starts_lf bs) (behind i rest) (ended i rest))",
        "(ended i rest)",
        "cases/Lines",
    ),
    (
        "the first line, read",
        "its rest would have 11 bytes",
        "FirstLine",
        "pick (eqb n 12) true",
        "pick (eqb n 11) true",
        "roundtrip",
    ),
    (
        "an account file's line, read",
        "K's interval would be a range of six digits",
        "FileLine",
        "series n = n / 1000",
        "series n = n",
        "cases/Heads",
    ),
    (
        "a group's line, read",
        "two spaces would announce a payer",
        "GroupLine",
        "(leb 3 (space_count s))",
        "(leb 2 (space_count s))",
        "roundtrip",
    ),
    (
        "an item's line, read",
        "a symbol on C would begin a text",
        "ItemLine",
        "pick (pick bare (pick (is_value (read_symbol (field_of s))) false true) false)",
        "pick bare",
        "cases/Items",
    ),
    (
        "a closing line, read",
        "a `+` that the sheet does not take would be told at the line's start",
        "ClosingLine",
        "(no 4 1)",
        "(no 4 0)",
        "cases/Lines",
    ),
    (
        "a whole file, read",
        "15 would come at account file 1,000",
        "Judge",
        "is_full sh (at_file x) k = leb 1000 (length x.files)",
        "is_full sh (at_file x) k = leb 999 (length x.files)",
        "exact",
    ),
    # ---- reading: fields
    (
        "a number, read",
        "it might have one digit more",
        "Numerals",
        "(ltb most (length s))",
        "(ltb (suc most) (length s))",
        "cases/Items",
    ),
    (
        "an account's digits",
        "the rest would be by 10",
        "Accounts",
        "+ n % 10) % 11",
        "+ n % 10) % 10",
        "account",
    ),
    (
        "an account's digits",
        "what there is would be tripled",
        "Accounts",
        "(2 * rest k (n / 10)",
        "(3 * rest k (n / 10)",
        "cases/Cases",
    ),
    (
        "an account's digits",
        "the first digit of ten would not count",
        "Accounts",
        "(eqb (rest 10 base) 0)",
        "(eqb (rest 9 base) 0)",
        "account",
    ),
    (
        "an account's digits, by the decree",
        "two weights would be swapped",
        "account:Decree",
        "10 ∷ 9 ∷ 7 ∷",
        "10 ∷ 7 ∷ 9 ∷",
        "account",
    ),
    (
        "an amount, read",
        "one digit might stand behind the comma",
        "Amounts",
        "(digits 2 2 (drop",
        "(digits 1 2 (drop",
        "cases/Cases",
    ),
    (
        "a bank field, read",
        "13 for the tenth digit would come before 12",
        "BankField",
        "pick (eqb (n / 10000 % 10000) 0) (fault 12)\n    (pick (ltb 999999999 n) (fault 13) (ninth",
        "pick (ltb 999999999 n) (fault 13)\n    (pick (eqb (n / 10000 % 10000) 0) (fault 12) (ninth",
        "cases/Order",
    ),
    (
        "a day, read",
        "the last day that a sheet takes would be refused",
        "Days",
        "(leb (day_number d - day_number today) ahead)",
        "(ltb (day_number d - day_number today) ahead)",
        "cases/Cases",
    ),
    (
        "one month ahead",
        "it would lie behind a shorter month's last day",
        "Days",
        "pick (ltb (month_days y m) d) (month_days y m) d",
        "pick (ltb (month_days y m) d) d d",
        "calendar",
    ),
    (
        "a collection's day, read",
        "it might be today from any bank",
        "Days",
        "pick own (ltb d today) (leb d today)",
        "pick own (ltb d today) (ltb d today)",
        "cases/Collections",
    ),
    (
        "a collection's own bank, read",
        "it would be S's on every sheet",
        "Terms",
        "(eqb bank sh.bank)",
        "(eqb bank 800)",
        "cases/Collections",
    ),
    (
        "a collection's kind, read",
        "it would be 1503",
        "Terms",
        "collection sh kind = pick (eqb kind 1502)",
        "collection sh kind = pick (eqb kind 1503)",
        "cases/Collections",
    ),
    (
        "a collection's group, read",
        "its day would also be judged at its own field, up to 365 days ahead",
        "Terms",
        "(pick (eqb kind 1502) false (pick",
        "(pick (eqb kind 1502) true (pick",
        "cases/Collections",
    ),
    (
        "a text, read",
        "its bytes behind the 35th would not be tested",
        "Texts",
        "pick (all is_text t)",
        "pick (all is_text (take 35 t))",
        "cases/Items",
    ),
    (
        "parts and name, read",
        "a name would begin behind `NP:` with no space before it",
        "Texts",
        "(seek mark m) (length m)",
        "(seek np m) (length m)",
        "cases/Items",
    ),
    (
        "the bytes of a part, read",
        "`~` would be taken where it must not stand",
        "Bytes",
        "pick (eqb x 35) false (not (eqb x 126))",
        "not (eqb x 35)",
        "scan",
    ),
    (
        "a warning's place, listed",
        "a text that is cut would be warned of at the line's first byte",
        "Texts",
        "(notice w p.place ∷ [])",
        "(notice w 0 ∷ [])",
        "cases/Warned",
    ),
    (
        "a warning's kind, listed",
        "a name that is cut would be warned of as a part",
        "Texts",
        "overs ps ++ over long_name n",
        "overs ps ++ over long_part n",
        "cases/Warned",
    ),
    # ---- the canonical spelling
    (
        "the first line, canonical",
        "the interval's ends would be swapped",
        "FirstLine",
        "(fixed 3 h.from ++ (fixed 3 h.to ++ fixed 12 0))",
        "(fixed 3 h.to ++ (fixed 3 h.from ++ fixed 12 0))",
        "roundtrip",
    ),
    (
        "an account file's line, canonical",
        "BANK would be C's on every sheet",
        "FileLine",
        "fixed 4 sh.bank",
        "fixed 4 300",
        "cases/Writing",
    ),
    (
        "a group's line, canonical",
        "two spaces would stand in single groups of K and C, and one in those of S and E",
        "GroupLine",
        "(pick always (32 ∷ []) [])",
        "(pick always [] (32 ∷ []))",
        "roundtrip",
    ),
    (
        "an item's line, canonical",
        "the symbol 0 would be missing before a text",
        "ItemLine",
        "(32 ∷ (decimal specific ++ (32 ∷ spell_text sh.text parts name))))",
        "(pick (eqb specific 0) [] (32 ∷ decimal specific) ++ (32 ∷ spell_text sh.text parts name)))",
        "cases/Writing",
    ),
    (
        "a closing line, canonical",
        "it would have no space",
        "ClosingLine",
        "spell_close digit = digit ∷ 32 ∷ 43 ∷ []",
        "spell_close digit = digit ∷ 43 ∷ []",
        "roundtrip",
    ),
    (
        "a number, canonical",
        "0 would have no digit",
        "Numerals",
        "pick (ltb n 10) ((48 + n) ∷ s)",
        "pick (ltb n 1) s",
        "cases/Writing",
    ),
    (
        "an account, canonical",
        "the prefix 0 would be spelled",
        "Accounts",
        "spell_account a = pick (eqb a.prefix 0)",
        "spell_account a = pick (eqb a.base 0)",
        "cases/Writing",
    ),
    (
        "a bank field, canonical",
        "the priority would stand there without a 0 before it",
        "BankField",
        "(fixed 10 (priority * 100000000",
        "(fixed 9 (priority * 100000000",
        "cases/Writing",
    ),
    (
        "a day, canonical",
        "the month would come before the day",
        "Days",
        "day_of d * 10000 + month_of d * 100",
        "month_of d * 10000 + day_of d * 100",
        "cases/Writing",
    ),
    (
        "a text, canonical",
        "empty parts at its end would be spelled on S",
        "Texts",
        "(joined (trim parts))",
        "(joined parts)",
        "cases/Writing",
    ),
    # ---- rows, and what a sheet carries
    (
        "the bytes of a part, carried",
        "those that the sheet does not take would be carried",
        "Texts",
        "pick (pick y.names (lacks mark p) true) (taken y p) false",
        "pick y.names (lacks mark p) true",
        "text",
    ),
    (
        "an item's row",
        "its amount would stand in the place of its bank",
        "Rows",
        "∷ x.bank ∷ x.amount ∷",
        "∷ x.amount ∷ x.bank ∷",
        "rowlaws",
    ),
    (
        "an item's row, as reading leaves it",
        "its reference would be 7",
        "Rows",
        "texts_words start spots (x.parts ++ (x.name ∷ [])) ++ blanks 3)",
        "texts_words start spots (x.parts ++ (x.name ∷ [])) ++ (7 ∷ blanks 2))",
        "rowlaws",
    ),
    (
        "a reference",
        "2^32 - 1 would be out of range",
        "Rows",
        "reference_proper n = ltb n 4294967296",
        "reference_proper n = ltb n 4294967295",
        "rowlaws",
    ),
    (
        "an item's row with a reference out of range",
        "another field would be named",
        "Proper",
        "rows_proper k b (misnumbered x ∷ ts) = item_stands k b x (wrong k 21)",
        "rows_proper k b (misnumbered x ∷ ts) = item_stands k b x (wrong k 22)",
        "outcomes",
    ),
    (
        "what an item's row says",
        "its reference would be looked for in another word",
        "Rows",
        "(pick (reference_proper (word r 21))",
        "(pick (reference_proper (word r 22))",
        "cases/References",
    ),
    (
        "what a group's row says",
        "its word 21 would be looked at",
        "Rows",
        "(a_group (word r 1) (account (word r 2) (word r 3)))",
        "(pick (reference_proper (word r 21)) (a_group (word r 1) (account (word r 2) (word r 3))) strange)",
        "cases/References",
    ),
    (
        "an item, carried",
        "any priority would be on every sheet",
        "Carried",
        "priority_carried sh.priority x.priority",
        "priority_carried true x.priority",
        "roundtrip",
    ),
    (
        "an account file, carried",
        "a number that repeats another's first three digits would be on K",
        "Carried",
        "seen = series number ∷ p.seen; kind = kind; date = 0 }",
        "seen = p.seen; kind = kind; date = 0 }",
        "roundtrip",
    ),
    (
        "a collection's item, carried",
        "its payee bank would not be tested by the group's day",
        "Carried",
        "    (check k 5 (bank_due sh today p.kind p.date x.bank)\n    (item_carried sh k x (rows_carried sh today h (suc k) (behind_item p) ts)))\n",
        "    (item_carried sh k x (rows_carried sh today h (suc k) (behind_item p) ts))\n",
        "roundtrip",
    ),
    (
        "the rules of rows, listed",
        "the first row that breaks a rule would be item 100,001 of an account file",
        "FirstWrong",
        "ltb (length (items_of_file before)) 99999",
        "ltb (length (items_of_file before)) 100000",
        "outcomes",
    ),
    (
        "the order of rules, listed",
        "a payee would be tested before the payer",
        "FirstWrong",
        "    ∷ rule k 1 (item_payer_proper (in_single before) x.payer)\n    ∷ rule k 3 (account_proper x.payee)\n",
        "    ∷ rule k 3 (account_proper x.payee)\n    ∷ rule k 1 (item_payer_proper (in_single before) x.payer)\n",
        "outcomes",
    ),
    (
        "a group's sum, in rows",
        "it would go on from the group before it",
        "Proper",
        "items = b.items; single = is_nobody payer; sum = 0 }",
        "items = b.items; single = is_nobody payer; sum = b.sum }",
        "roundtrip",
    ),
    # ---- statements: records
    (
        "a record's end, read",
        "CR LF would not be asked for behind a head",
        "gpc:Records",
        "(movement_is (read_movement s)) no_record))\n    no_record",
        "(movement_is (read_movement s)) no_record))\n    (pick (starts (bytes \"074\") s) (head_is (read_head s)) no_record)",
        "gpcback",
    ),
    (
        "a movement's amount, read",
        "it would begin one byte early",
        "gpc:Records",
        "on_field 48 (read_digits 12 (slice 48 12 s))",
        "on_field 48 (read_digits 12 (slice 47 12 s))",
        "gpcback",
    ),
    (
        "bytes left over, read",
        "they would be passed over",
        "gpc:Parts",
        "pieces_on n zero s = pick (null s) [] (s ∷ [])",
        "pieces_on n zero s = []",
        "gpcback",
    ),
    (
        "the internal form",
        "the order of the way back would be that of the way there",
        "gpc:Internal",
        "internal d = taken inside d",
        "internal d = taken outside d",
        "internal",
    ),
    (
        "a balance, read",
        "minus before zero would stay minus",
        "gpc:Signed",
        "minus = pick (eqb n 0) false minus;",
        "minus = pick (eqb n 0) minus minus;",
        "turnover",
    ),
    (
        "a balance, canonical",
        "zero would have a minus",
        "gpc:Signed",
        "(pick x.minus 45 plus ∷ [])",
        "(pick (eqb x.size 0) 45 (pick x.minus 45 plus) ∷ [])",
        "turnover",
    ),
    (
        "a file without minus before zero",
        "a movement's first kept byte would be cleared",
        "gpc:Canonical",
        "(plain_sign balance_plus 45 s))))\n    s\n",
        "(plain_sign balance_plus 45 s))))\n    (put s 35 (48 ∷ []))\n",
        "gpcback",
    ),
    # ---- statements: sums, and the order of their tests
    (
        "posting codes",
        "3 would be a reversed debit",
        "gpc:Turnovers",
        "(pick (eqb c 4) true",
        "(pick (eqb c 3) true",
        "turnover",
    ),
    (
        "the debit turnover",
        "reversed credits would be taken off it",
        "gpc:Turnovers",
        "is_difference (total 1 ms) (total 4 ms) x",
        "is_difference (total 1 ms) (total 5 ms) x",
        "turnover",
    ),
    (
        "the rule of the balance",
        "the new one would be old + debit - credit",
        "gpc:Turnovers",
        "eqb (side new debit old credit) (side old credit new debit)",
        "eqb (side new credit old debit) (side old debit new credit)",
        "turnover",
    ),
    (
        "the sums of a statement, tested",
        "they would come after the fields of the next head",
        "gpc:Statements",
        "    on_said j (closed p h ms) λ s. with s (on_said k x λ g. judge_on p (suc k) (within k g []) rs)",
        "    on_said k x λ g. on_said j (closed p h ms) λ s. with s (judge_on p (suc k) (within k g []) rs)",
        "gpcexact",
    ),
    (
        "the last statement's sums, tested",
        "they would not be",
        "gpc:Statements",
        LAST.format(before="", taken="on_said j (closed p h ms) λ s. accepted (s ∷ [])"),
        LAST.format(before=TAKEN, taken="taken (statement h ms) (closed p h ms)"),
        "gpcexact",
    ),
    (
        "a new balance that differs, placed",
        "it would be told at the old balance",
        "gpc:Statements",
        "record { new = 60; debit = 75; credit = 90 }",
        "record { new = 45; debit = 75; credit = 90 }",
        "gpcwhole/Examples",
    ),
    (
        "a new balance that differs, placed in a row",
        "it would be told at the old balance's word",
        "gpc:Statements",
        "record { new = 4; debit = 5; credit = 6 }",
        "record { new = 3; debit = 5; credit = 6 }",
        "gpcwhole/Examples",
    ),
    (
        "the end of a record",
        "it would be LF CR",
        "gpc:Records",
        "crlf = 13 ∷ 10 ∷ []",
        "crlf = 10 ∷ 13 ∷ []",
        "gpcwhole/Examples",
    ),
    (
        "a movement before any head",
        "it would be passed over",
        "gpc:Statements",
        "judge_on p k top (movement_is x ∷ rs) = refused 50 k 0",
        "judge_on p k top (movement_is x ∷ rs) = judge_on p (suc k) top rs",
        "gpcexact",
    ),
    (
        "the first fault of statements, declared",
        "sums would be told at the record behind them",
        "gpc:FirstFault",
        "Broken p h n (begun g ms) rs m h off",
        "Broken p h n (begun g ms) rs m n off",
        "gpcexact",
    ),
    # ---- statements: rows and answers
    (
        "a balance's word",
        "its minus would be the first bit alone",
        "gpc:Signed",
        "pick x.minus (negative x.size) x.size",
        "pick x.minus (9223372036854775808 + x.size) x.size",
        "turnover",
    ),
    (
        "a head's row",
        "its turnovers would be swapped",
        "gpc:StatementRows",
        "    ∷ signed_word h.debit\n    ∷ signed_word h.credit\n",
        "    ∷ signed_word h.credit\n    ∷ signed_word h.debit\n",
        "gpcback",
    ),
    (
        "a movement's row, tested",
        "an amount might have thirteen digits",
        "gpc:StatementRows",
        "(leb m.amount most12)",
        "(leb m.amount 9999999999999)",
        "gpcback",
    ),
    (
        "the rows needed",
        "16 would name one too many",
        "gpc:Answers",
        "(needs (row_count ss)) (accepted_as (row_count ss))",
        "(needs (suc (row_count ss))) (accepted_as (row_count ss))",
        "gpcwhole",
    ),
    (
        "a refused row",
        "it would be counted from 0",
        "gpc:Answers",
        "refusal n (suc k) off",
        "refusal n k off",
        "gpcwhole",
    ),
    # ---- why a line is refused
    (
        "a closing line, walked",
        "a minus would close a group",
        "why:Walk",
        "pick (eqb x 43) (ended 43",
        "pick (eqb x 45) (ended 43",
        "why",
    ),
    (
        "an account file's kind, allowed",
        "every kind would be",
        "why:Allowed",
        "is_taken sh today c w file_kind s = is_value (read_kind sh s)",
        "is_taken sh today c w file_kind s = true",
        "why",
    ),
    (
        "an account file's line, walked",
        "what follows the bank would not be told",
        "why:Walk",
        "      ended 42 payer_bank a5 s5",
        "      passed",
        "why",
    ),
    (
        "a total that is not the sum, found",
        "the finding would name the refusal of a warning",
        "why:Finding",
        "(finding 10 100 x.head.line",
        "(finding 0 100 x.head.line",
        "why",
    ),
    (
        "a total that differs, listed",
        "it would be listed for the items behind the first alone",
        "why:Warned",
        "(λ i. i.amount + ahead sh today c ts)",
        "(λ i. ahead sh today c ts)",
        "why",
    ),
    # ---- what is found in a file, listed and told
    (
        "what is found in a file, counted",
        "an accepted file would have one finding more than warnings",
        "findings:Findings",
        "findings_of sh today f (Accepted h b w) = warned_in sh today f",
        "findings_of sh today f (Accepted h b w) = found_in sh today f ∷ warned_in sh today f",
        "findings",
    ),
    (
        "a list that has no room",
        "16 would have the room in the place of the need",
        "findings:Lists",
        "(needs_room (length (findings sh today f)))",
        "(needs_room room)",
        "findings",
    ),
    (
        "a sheet's line",
        "rows would be told in the place of warnings",
        "verdict:Sheets",
        "(accepted_words v.warnings)",
        "(accepted_words v.rows)",
        "verdict",
    ),
    (
        "the bit of a sheet",
        "sheet n would have bit n",
        "verdict:Sheets",
        "(2 ^ (sh.number - 1)) 0",
        "(2 ^ sh.number) 0",
        "verdict",
    ),
    (
        "the text of a file",
        "a refused file would be said to be accepted",
        "explain:Explanation",
        "heading letter (Refused n l p) = refused_heading letter",
        "heading letter (Refused n l p) = accepted_heading letter 0 0",
        "explain",
    ),
    (
        "a sentence's bytes",
        "it would hold a byte of no ASCII",
        "sentences:Quoted",
        "pick (ltb 126 x) false",
        "pick (ltb 127 x) false",
        "sentences",
    ),
    # ---- the day's numbers
    (
        "a register's size",
        "128 bytes would do",
        "register:Register",
        "register_size = 136",
        "register_size = 128",
        "register",
    ),
    (
        "a register that is laid out",
        "its date would not be looked at",
        "register:Register",
        "(pick (real_day (date_in lent)) (none_above (marks_in lent)) false)",
        "(pick (real_day 20180101) (none_above (marks_in lent)) false)",
        "register",
    ),
    (
        "a register that is laid out",
        "1,023 might be marked",
        "register:Register",
        "eqb (taken (λ j. p (1000 + j)) 24) 0",
        "eqb (taken (λ j. p (1000 + j)) 23) 0",
        "register",
    ),
    (
        "a day's start",
        "a day that is not real would be 16",
        "register:Register",
        "(answer 16 register_size)) (answer 2 0)",
        "(answer 16 register_size)) (answer 16 register_size)",
        "register",
    ),
    (
        "the lowest free number",
        "it would be 0 if none is free",
        "register:Marks",
        "lowest_from p n zero = n",
        "lowest_from p n zero = 0",
        "register",
    ),
    (
        "how many numbers are free",
        "those that are marked would be counted",
        "register:Marks",
        "free p (suc m) = free p m + pick (p m) 0 1",
        "free p (suc m) = free p m + pick (p m) 1 0",
        "register",
    ),
    (
        "a number given back",
        "one that is free would do",
        "register:Register",
        "is_given p n = pick (ltb n 1000) (p n) false",
        "is_given p n = ltb n 1000",
        "register",
    ),
    (
        "a number given back",
        "all numbers would be free then",
        "register:Marks",
        "without n p k = pick (eqb k n) false (p k)",
        "without n p k = false",
        "register",
    ),
    (
        "numbers marked",
        "those that were marked would be free",
        "register:Marks",
        "with numbers p k = pick (member k numbers) true (p k)",
        "with numbers p k = member k numbers",
        "register",
    ),
    (
        "a number used that day, read",
        "22 would come before 9",
        "against:Against",
        "pick (eqb (test n) 0) (pick (marks (series n)) 22 0) (test n)",
        "pick (marks (series n)) 22 (test n)",
        "against",
    ),
    (
        "a number used that day, read",
        "it would be 9",
        "against:Against",
        "(pick (marks (series n)) 22 0)",
        "(pick (marks (series n)) 9 0)",
        "against",
    ),
    (
        "the register's date, read",
        "the register would be for all other days",
        "against:Against",
        "is_other reg (got d) = not (fits reg d)",
        "is_other reg (got d) = fits reg d",
        "against",
    ),
    (
        "the register's date, read",
        "23 would stand at the name",
        "against:Against",
        "(no 23 4)",
        "(no 23 10)",
        "against",
    ),
    (
        "which sheets look at a register",
        "all that read a header would",
        "against:Against",
        "pick sh.interval (run_on",
        "pick sh.header (run_on",
        "against",
    ),
    (
        "an accepted file's numbers",
        "they would be marked although the rows have no room",
        "against:Registered",
        "pick (ltb room (row_count b)) register (marking register reg b)",
        "marking register reg b",
        "against",
    ),
    (
        "an accepted file's numbers",
        "none would be marked",
        "against:Registered",
        "laid_in register date (with (seen b) p)",
        "laid_in register date p",
        "against",
    ),
]


class Fallen:
    """A crate that edits must make fall, or a table of one: copied with all crates below, over the modules that their proofs left."""

    def __init__(self, name, work):
        self.crate, _, self.table = name.partition("/")
        self.sources = Sources(self.crate, work / name.replace("/", "."))

    def tried(self, label, file, old, new):
        """What is wrong with the edit or with what the prover says of it, or None; and the place where a fact fails."""
        text = (self.sources.crates / file).read_text(encoding="utf-8")
        if text.count(old) != 1:
            return f"what it takes out stands {text.count(old)} times in {file}", None
        status, said = self.sources.edited(label, {file: text.replace(old, new)})
        found = complaints(said)
        if not is_refused(status, said) or not found:
            return f"{self.crate} is not refused (exit {status}): {said[-300:]}", None
        others = [at for at, _ in found if not self.is_own(at)]
        others += [f for f in re.findall(r"^fn (\w+)::\w+.*: not proved", said, re.M) if f != self.crate]
        if others:
            return f"what is refused is not only {self.crate}: {others[0]}", None
        found = [(at, words) for at, words in found if not self.table or f"proofs/{self.table}.antt:" in at]
        if not found:
            return f"nothing is refused in the table {self.table}", None
        at, words = found[0]
        return None if is_fact(words) else f"refused, but not because a fact fails: {at}: {words[:300]}", at

    def is_own(self, at):
        return at.startswith((f"{self.crate}/", f"{self.crate}::", *(f"{part}/" for part in PARTS)))


def path_of(file):
    """Where the file of an entry stands below crates/."""
    crate, _, name = file.rpartition(":")
    return f"{crate or 'paper'}/specs/{name}.antt"


def main():
    asked = sys.argv[1:]
    chosen = [w for w in WRONG if not asked or any(word in part for word in asked for part in (w[0], w[2], w[-1]))]
    passed = 0
    with tempfile.TemporaryDirectory() as folder, concurrent.futures.ThreadPoolExecutor(jobs()) as pool:
        work = pathlib.Path(folder).resolve()
        names = sorted({name for *_, name in chosen})
        fallen = dict(zip(names, pool.map(lambda name: Fallen(name, work), names)))

        def one(number):
            _, _, file, old, new, name = chosen[number]
            began = time.time()
            return *fallen[name].tried(str(number), path_of(file), old, new), time.time() - began

        for (title, idea, *_, name), (wrong, at, seconds) in zip(chosen, pool.map(one, range(len(chosen)))):
            fell = f"{title}: {idea}: {name} is not proved any more, as it must be (first at {at}; {seconds:.1f} s)"
            print(f"failed: {title}: {idea}: {wrong}" if wrong else fell, flush=True)
            passed += wrong is None
    print(f"{passed} passed, {len(chosen) - passed} failed")
    return 0 if chosen and passed == len(chosen) else 1


if __name__ == "__main__":
    sys.exit(main())
