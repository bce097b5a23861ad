#!/usr/bin/env python3
"""Plants one-line faults in copies of the second program, one after another, and compares the clean program with each.

For each fault: copy, replace (the old text must stand exactly once), build, run
`second compare --seed 1 --size small -- FAULTY`, record which groups found it and after how many cases.
The table goes to target/faults/faults.md, the whole outputs to target/faults/logs/. Build the clean program first:
`cargo build --release --target-dir ../target/second`. Arguments: numbers of faults, to run only those
(the others keep what results.json holds); 0 writes only the table again."""
import json, os, re, shutil, subprocess, sys, time

CLEAN = os.path.dirname(os.path.abspath(__file__))
HERE = os.path.join(os.path.dirname(CLEAN), "target", "faults")
COPY = os.path.join(HERE, "copy")

# name, file, old, new
FAULTS = [
    ("n_L for n_S in place, page in B1 (CART)", "request.rs", "max(1, n_s(d) / size(&d.b1))", "max(1, n_l(d) / size(&d.b1))"),
    ("n_S for n_L in place, page in B2 (CART)", "request.rs", "max(1, n_l(d) / size(&d.b2))", "max(1, n_s(d) / size(&d.b2))"),
    ("trim before evict", "request.rs", "let evicted = evict(d);\n    trim(d, page);", "trim(d, page);\n    let evicted = evict(d);"),
    ("T2 victim to B1 (prose of line 34)", "request.rs", "d.b2.push(head); // line 34", "d.b1.push(head); // line 34"),
    ("bit set to one when T1's head goes on (prose of line 29)", "request.rs", "head.referenced = false; // line 29, from T1 on to T2", "head.referenced = true; // line 29, from T1 on to T2"),
    ("T1's L head with its bit set goes to T2, bit 0 (CART prose, rule 5)", "request.rs", "    if head.referenced {", "    if head.referenced && !(head.long && { head.referenced = false; true }) {"),
    ("max(p+1, |B1|) for min", "request.rs", "size(&d.t1) >= min(d.p + 1, size(&d.b1))", "size(&d.t1) >= max(d.p + 1, size(&d.b1))"),
    ("quotient rounded up (CAR, page in B1)", "request.rs", "max(1, size(&d.b2) / size(&d.b1))", "max(1, (size(&d.b2) + size(&d.b1) - 1) / size(&d.b1))"),
    ("quotient rounded up (CART, page in B2)", "request.rs", "max(1, n_l(d) / size(&d.b2))", "max(1, (n_l(d) + size(&d.b2) - 1) / size(&d.b2))"),
    ("wrong divisor, |B1| for |B2| (CAR; kept from 0)", "request.rs", "max(1, size(&d.b1) / size(&d.b2))", "max(1, size(&d.b1) / max(1, size(&d.b1)))"),
    ("wrong divisor, |B1| for |B2| (CART; kept from 0)", "request.rs", "max(1, n_l(d) / size(&d.b2))", "max(1, n_l(d) / max(1, size(&d.b1)))"),
    ("page taken out of B1 before the quotient (CAR; divides by 0 with one entry)", "request.rs", "d.p = min(d.p + max(1, size(&d.b2) / size(&d.b1)), d.c);\n        take_out(&mut d.b1, page);", "take_out(&mut d.b1, page);\n        d.p = min(d.p + max(1, size(&d.b2) / size(&d.b1)), d.c);"),
    ("the same, the divisor kept from 0", "request.rs", "max(1, size(&d.b2) / size(&d.b1))", "max(1, size(&d.b2) / max(1, size(&d.b1) - 1))"),
    ("page taken out of B1 before the quotient (CART, the divisor kept from 0)", "request.rs", "max(1, n_s(d) / size(&d.b1))", "max(1, n_s(d) / max(1, size(&d.b1) - 1))"),
    ("q - 1 wrapping at 0", "request.rs", "max(d.q - 1, d.c - size(&d.t1)); // line 33", "max((d.q as u32).wrapping_sub(1) as i64, d.c - size(&d.t1)); // line 33"),
    ("|T1| before the move at lowering q (line 33)", "request.rs", "max(d.q - 1, d.c - size(&d.t1)); // line 33", "max(d.q - 1, d.c - (size(&d.t1) + 1)); // line 33"),
    ("page 0 treated as an empty entry (histories)", "directory.rs", "list.iter().any(|entry| entry.page == page)", "list.iter().any(|entry| entry.page == page && entry.page != 0)"),
    ("page 0 treated as an empty entry (hit)", "request.rs", ".find(|entry| entry.page == page)", ".find(|entry| entry.page == page && entry.page != 0)"),
    ("> for >= at max(1, p) (CAR)", "request.rs", "if size(&d.t1) >= max(1, d.p) {\n            let mut head", "if size(&d.t1) > max(1, d.p) {\n            let mut head"),
    ("> for >= at max(1, p) (CART)", "request.rs", "if size(&d.t1) >= max(1, d.p) {\n        let head", "if size(&d.t1) > max(1, d.p) {\n        let head"),
    ("raise's 2c - |T1| without the subtraction", "request.rs", "min(d.q + 1, 2 * d.c - size(&d.t1))", "min(d.q + 1, 2 * d.c)"),
    ("raise before the move (T2's head)", "request.rs", "        let mut head = d.t2.remove(0);\n        head.referenced = false;\n        d.t1.push(head);\n        moves += 1;\n        raise_q(d);", "        raise_q(d);\n        let mut head = d.t2.remove(0);\n        head.referenced = false;\n        d.t1.push(head);\n        moves += 1;"),
    ("trim (CART) without \"or B2 is empty\"", "request.rs", "if size(&d.b1) > d.q || d.b2.is_empty() {", "if size(&d.b1) > d.q {"),
    ("final demotion not counted (CART)", "request.rs", "    moves += 1;\n    if size(&d.t1)", "    if size(&d.t1)"),
    ("comma dropped in the miss cost (1250 is taken as 1,250)", "sheet.rs", "    let comma = value.iter()", "    let at = value.len().saturating_sub(3); let with = [&value[..at], b\",\", &value[at..]].concat(); let value = if value.contains(&b',') { value } else { &with[..] }; let comma = value.iter()"),
    ("leading zero accepted", "sheet.rs", "let leading_zero = value.len() > 1 && value[0] == b'0';", "let leading_zero = false;"),
    ("second wrong line decides", "sheet.rs", ".map_err(|number| Refused { number, line })?;", ".map_err(|number| read_lines(sheet, blank, place + text.len() + 1, line + 1).err().unwrap_or(Refused { number, line }))?;"),
    ("line from 0", "sheet.rs", "read_lines(sheet, blank, 0, 1)?;", "read_lines(sheet, blank, 0, 1).map_err(|r| Refused { number: r.number, line: r.line - 1 })?;"),
    ("look-up from the second `=`", "sheet.rs", "text.iter().position(|&byte| byte == b'=')", "(0..text.len()).filter(|&at| text[at] == b'=').take(2).last()"),
    ("wait padded with blanks", "result.rs", "wait={},{:03}", "wait={},{:3}"),
    ("5 before 8 at the 1,001st page line", "sheet.rs", "            let value = after_key(text, b\"page=\")?;\n            if listed.len() == MOST_PAGES {\n                return Err(5);\n            }", "            if listed.len() == MOST_PAGES {\n                return Err(5);\n            }\n            let value = after_key(text, b\"page=\")?;"),
    ("7 before 6 in the sheet reader", "sheet.rs", "    if pages.len() < PAGE_BUFFER {", "    if pages.len() < PAGE_BUFFER && sheet.len() <= LONGEST_SHEET {"),
    ("page words past the count set to zero", "sheet.rs", "    pages[..listed.len()].copy_from_slice(&listed);", "    pages.fill(0); pages[..listed.len()].copy_from_slice(&listed);"),
    ("a refused run clears its answers", "run.rs", "        return (number, tally);", "        answers.fill(0); return (number, tally);"),
    ("soundness without \"histories are empty if there is room\"", "directory.rs", "let histories_may_be = t1 + t2 == c || b1 + b2 == 0;", "let histories_may_be = true;"),
    ("soundness with q up to 2c + 1", "directory.rs", "d.q <= 2 * d.c &&", "d.q <= 2 * d.c + 1 &&"),
    ("LRU's hit left where it is", "request.rs", "LRU => to_tail(&mut d.t1, page),", "LRU => {}"),
    ("FIFO's hit marked", "request.rs", "FIFO => {}", "FIFO => entry.referenced = true,"),
    ("CLOCK's second chance at the head's place instead of the tail", "request.rs", "head.referenced = false; // second chance\n        d.t1.push(head);", "head.referenced = false; // second chance\n        d.t1.insert(0, head);"),
    ("CLOCK's bit not cleared on the second chance (cleared in the second round, or it would not end)", "request.rs", "head.referenced = false; // second chance", "head.referenced = i64::from(moves) < d.c; // second chance"),
    ("an evicted page of the three put into B1", "request.rs", "return Evicted { page: head.page, list: 1, moves };", "d.b1.push(head.clone()); return Evicted { page: head.page, list: 1, moves };"),
    ("the second chance not counted as a move", "request.rs", "return Evicted { page: head.page, list: 1, moves };", "return Evicted { page: head.page, list: 1, moves: 1 };"),
    ("a bit in a FIFO directory called sound", "directory.rs", "keeps_bits(d.policy) || no_bit(&d.t1)", "d.policy == 3 || keeps_bits(d.policy) || no_bit(&d.t1)"),
    ("p not asked to be 0 (the three)", "directory.rs", "d.p == 0 && d.q == 0 && others_empty", "d.q == 0 && others_empty"),
    ("a page in T2 called sound (the three)", "directory.rs", "d.t2.is_empty() && d.b1.is_empty() && d.b2.is_empty()", "d.b1.is_empty() && d.b2.is_empty()"),
    ("policy 6 known", "policy.rs", "name(policy).is_some()", "name(policy).is_some() || policy == 6"),
    ("`lru` not known on a sheet", "sheet.rs", "b\"\" => Ok(blank),", "b\"lru\" => Err(1), b\"\" => Ok(blank),"),
    ("LRU evicting its most recent page", "request.rs", "        moves += 1;\n        let mut head = d.t1.remove(0);\n        if !head", "        moves += 1;\n        let mut head = d.t1.remove(if d.policy == LRU { d.t1.len() - 1 } else { 0 });\n        if !head"),
    ("a bit in an LRU directory called sound", "directory.rs", "keeps_bits(d.policy) || no_bit(&d.t1)", "d.policy == 5 || keeps_bits(d.policy) || no_bit(&d.t1)"),
    ("a bit in a CLOCK directory called unsound", "directory.rs", "keeps_bits(d.policy) || no_bit(&d.t1)", "no_bit(&d.t1)"),
    ("q not asked to be 0 (the three)", "directory.rs", "d.p == 0 && d.q == 0 && others_empty", "d.p == 0 && others_empty"),
    ("a page in B1 called sound (the three)", "directory.rs", "d.t2.is_empty() && d.b1.is_empty() && d.b2.is_empty()", "d.t2.is_empty() && d.b2.is_empty()"),
    ("a page in B2 called sound (the three)", "directory.rs", "d.t2.is_empty() && d.b1.is_empty() && d.b2.is_empty()", "d.t2.is_empty() && d.b1.is_empty()"),
    ("a filter bit called sound (the three)", "directory.rs", "others_empty && all_short(&d.t1) && bits_may_be", "others_empty && bits_may_be"),
    ("CLOCK's hit not marked", "request.rs", "FIFO => {}", "FIFO | crate::policy::CLOCK => {}"),
    ("CLOCK's hit moved to the tail, too", "request.rs", "_ => entry.referenced = true,", "_ => { entry.referenced = true; if d.policy == 4 { to_tail(&mut d.t1, page) } }"),
    ("LRU's hit counted as a hand move", "request.rs", "return Answer { kind: 0, page: 0, list: 0, moves: 0 };", "return Answer { kind: 0, page: 0, list: 0, moves: (d.policy == LRU) as u32 };"),
    ("LRU's hit swapped with the tail instead of moved", "request.rs", "list[at..].rotate_left(1);", "let tail = list.len() - 1; list.swap(at, tail);"),
    ("CLOCK's new page with bit 1", "request.rs", "_ => place_new(d, page),", "_ => { place_new(d, page); let last = d.t1.len() - 1; d.t1[last].referenced = d.policy == 4; 2 }"),
    ("CLOCK's hand stops after c moves", "request.rs", "        if !head.referenced {\n            return Evicted { page: head.page", "        if !head.referenced || i64::from(moves) == d.c {\n            return Evicted { page: head.page"),
    ("`clock` and `lru` exchanged on sheets", "policy.rs", "(\"clock\", CLOCK), (\"lru\", LRU)", "(\"clock\", LRU), (\"lru\", CLOCK)"),
    ("a name known by its beginning", "policy.rs", "known.as_bytes() == name", "!name.is_empty() && known.as_bytes().starts_with(name)"),
    ("a blank behind the name taken", "sheet.rs", "name => policy::number(name).ok_or(1),", "name => policy::number(name.trim_ascii_end()).ok_or(1),"),
    ("policy 0 known", "policy.rs", "name(policy).is_some()", "name(policy).is_some() || policy == 0"),
    ("a blank policy still means car", "policy.rs", "pub const BLANK: u32 = CART;", "pub const BLANK: u32 = CAR;"),
    ("a blank policy still means car to score and ledger", "programs.rs", "read_whole(sheet, BLANK)", "read_whole(sheet, crate::policy::CAR)"),
    ("a blank policy still means car to the probe's reader", "probe.rs", "read_sheet(&sheet, BLANK, &mut pages)", "read_sheet(&sheet, crate::policy::CAR, &mut pages)"),
    ("a blank policy refused 1", "sheet.rs", "b\"\" => Ok(blank),", "b\"\" => Err(1),"),
    ("a blank followed by CR taken as blank by the reader (copied unchanged)", "sheet.rs", "b\"\" => Ok(blank),", "b\"\" | b\"\\r\" => Ok(blank),"),
    ("`cart` written by copy", "copy.rs", "[&b\"policy=car\\n\"[..], rest]", "[&b\"policy=cart\\n\"[..], rest]"),
    ("`car ` written by copy, a byte more", "copy.rs", "[&b\"policy=car\\n\"[..], rest]", "[&b\"policy=car \\n\"[..], rest]"),
    ("`car` and a second line feed written by copy", "copy.rs", "[&b\"policy=car\\n\"[..], rest]", "[&b\"policy=car\\n\\n\"[..], rest]"),
    ("`ca` written by copy, a byte fewer", "copy.rs", "[&b\"policy=car\\n\"[..], rest]", "[&b\"policy=ca\\n\"[..], rest]"),
    ("`car` written by copy in place of the line feed", "copy.rs", "[&b\"policy=car\\n\"[..], rest]", "[&b\"policy=car\"[..], rest]"),
    ("a blank left blank by copy", "copy.rs", "[&b\"policy=car\\n\"[..], rest]", "[&b\"policy=\\n\"[..], rest]"),
    ("the copy's length not tested", "copy.rs", "if copy.len() > LONGEST_SHEET {", "if false {"),
    ("a copy of 15,999 bytes as the longest", "copy.rs", "if copy.len() > LONGEST_SHEET {", "if copy.len() >= LONGEST_SHEET {"),
    ("a copy of 15,999 bytes as the longest, where the policy was blank", "copy.rs", "if copy.len() > LONGEST_SHEET {", "if copy.len() > LONGEST_SHEET - (copy.len() > sheet.len()) as usize {"),
    ("a copy of 16,001 bytes as the longest", "copy.rs", "if copy.len() > LONGEST_SHEET {", "if copy.len() > LONGEST_SHEET + 1 {"),
    ("three bytes more counted for a named policy, too", "copy.rs", "if copy.len() > LONGEST_SHEET {", "if sheet.len() + 3 > LONGEST_SHEET {"),
    ("7 for the copy before the lines", "copy.rs", "    read_whole(sheet, BLANK_BEFORE)?;", "    if sheet.starts_with(b\"policy=\\n\") && sheet.len() + 3 > LONGEST_SHEET { return Err(Refused { number: 7, line: 0 }); }\n    read_whole(sheet, BLANK_BEFORE)?;"),
    ("7 for the copy with line 1", "copy.rs", "return Err(Refused { number: 7, line: 0 });", "return Err(Refused { number: 7, line: 1 });"),
    ("a copy too long cut instead of refused", "copy.rs", "return Err(Refused { number: 7, line: 0 });", "return Ok(copy[..LONGEST_SHEET].to_vec());"),
    ("cart rewritten to car in a named sheet", "copy.rs", "None => sheet.to_vec(),", "None => match sheet.strip_prefix(b\"policy=cart\\n\") { Some(rest) => [&b\"policy=car\\n\"[..], rest].concat(), None => sheet.to_vec() },"),
    ("the copy's last line feed dropped", "copy.rs", "    Ok(copy)\n}", "    Ok(copy.trim_ascii_end().to_vec())\n}"),
    ("the lines of a sheet to be copied not judged", "copy.rs", "    read_whole(sheet, BLANK_BEFORE)?;", "    if sheet.len() > LONGEST_SHEET { return Err(Refused { number: 7, line: 0 }); }"),
    ("only the first three lines of a sheet to be copied judged", "copy.rs", "    read_whole(sheet, BLANK_BEFORE)?;", "    let three: usize = sheet.split_inclusive(|&byte| byte == b'\\n').take(3).map(|line| line.len()).sum();\n    read_whole(if sheet.len() > LONGEST_SHEET { sheet } else { &sheet[..three] }, BLANK_BEFORE)?;"),
    ("a blank followed by CR taken as blank by copy (trimmed)", "copy.rs", "    read_whole(sheet, BLANK_BEFORE)?;", "    let trimmed = sheet.strip_prefix(b\"policy=\\r\\n\").map(|rest| [&b\"policy=\\n\"[..], rest].concat());\n    let sheet = trimmed.as_deref().unwrap_or(sheet);\n    read_whole(sheet, BLANK_BEFORE)?;"),
    ("part of the copy in front of a refusal", "programs.rs", "Err(refused) => refusal_lines(refused).into_bytes(),", "Err(refused) => [&sheet[..sheet.len().min(7)], refusal_lines(refused).as_bytes()].concat(),"),
    ("the copy too long in front of its refusal", "programs.rs", "Err(refused) => refusal_lines(refused).into_bytes(),", "Err(refused) if refused.number == 7 => [sheet, refusal_lines(refused).as_bytes()].concat(),\n        Err(refused) => refusal_lines(refused).into_bytes(),"),
    ("a refused copy ends with status 1", "main.rs", "output.write_all(&programs::copy(sheet))", "output.write_all(&programs::copy(sheet)).and(copy::copy_of(sheet).map(drop).map_err(|_| std::io::Error::other(\"refused\")))"),
    ("council: writes counted", "council.rs", "b\"w\" | b\"W\" => Some(false),", "b\"w\" | b\"W\" => Some(true),"),
    ("council: another unit's reads counted", "council.rs", "record.read && record.unit == unit as u64", "record.read"),
    ("council: the unit compared in 32 bits", "council.rs", "record.unit == unit as u64", "record.unit as u32 == unit"),
    ("council: units over 32 bits taken as the largest", "council.rs", "record.unit == unit as u64", "record.unit.min(u32::MAX as u64) == unit as u64"),
    ("council: the last page left out when the size ends on its border", "council.rs", "(start / PAGE, last_byte / PAGE);", "(start / PAGE, last_byte / PAGE - u128::from((last_byte + 1) % PAGE == 0 && last_byte / PAGE > start / PAGE));"),
    ("council: a page more when the size ends on a border", "council.rs", "let last_byte = start + record.size as u128 - 1;", "let last_byte = start + record.size as u128;"),
    ("council: pages by the size alone, wherever in its page the record begins", "council.rs", "(start / PAGE, last_byte / PAGE);", "(start / PAGE, start / PAGE + (last_byte - start) / PAGE);"),
    ("council: block for page", "council.rs", "const PAGE: u128 = 4_096;", "const PAGE: u128 = 512;"),
    ("council: falling order inside a record", "council.rs", "touched.extend(first as u32..=last as u32);", "touched.extend((first as u32..=last as u32).rev());"),
    ("council: a page touched again at once left out", "council.rs", "touched.extend(first as u32..=last as u32);", "touched.extend(first as u32..=last as u32); touched.dedup();"),
    ("council: size 0 taken as 1", "council.rs", "let size = integer(fields.next()?)?;", "let size = integer(fields.next()?)?.max(1);"),
    ("council: 11 for a record of size 0", "council.rs", "    if !counts || record.size == 0 {", "    if !counts || record.size == 0 && record.lba <= 34_359_738_368 {"),
    ("council: 11 tested on writes", "council.rs", "    if !counts || record.size == 0 {", "    if record.unit == unit as u64 && record.size > 0 && record.lba >= 34_359_738_368 {\n        return Err(11);\n    }\n    if !counts || record.size == 0 {"),
    ("council: 11 tested on other units", "council.rs", "    if !counts || record.size == 0 {", "    if record.read && record.size > 0 && record.lba >= 34_359_738_368 {\n        return Err(11);\n    }\n    if !counts || record.size == 0 {"),
    ("council: 11 by the first page alone", "council.rs", "    if last > LAST_PAGE {", "    if first > LAST_PAGE {"),
    ("council: page 4,294,967,295 refused", "council.rs", "    if last > LAST_PAGE {", "    if last >= LAST_PAGE {"),
    ("council: 10 only judged for counted records", "council.rs", "let record = record(text).ok_or(10u32)?;", "let mut fields = text.split(|&byte| byte == b',');\n    let named = fields.next().and_then(integer) == Some(unit as u64) && matches!(fields.nth(2), Some(b\"r\" | b\"R\"));\n    let Some(record) = record(text) else {\n        return if named { Err(10) } else { Ok(()) };\n    };"),
    ("council: the timestamp of a write not judged", "council.rs", "    timestamp(fields.next()?)?;", "    let time = fields.next()?;\n    if read {\n        timestamp(time)?;\n    }"),
    ("council: 5 before 11", "council.rs", "    if last > LAST_PAGE {\n        return Err(11);\n    }\n    if last - first + 1 > (MOST_PAGES - touched.len()) as u128 {\n        return Err(5);\n    }", "    if last - first + 1 > (MOST_PAGES - touched.len()) as u128 {\n        return Err(5);\n    }\n    if last > LAST_PAGE {\n        return Err(11);\n    }"),
    ("council: 11 before 10 inside a line", "council.rs", ".ok_or(10u32)?;", ".ok_or_else(|| if text.split(|&byte| byte == b',').nth(1).and_then(integer) > Some(34_359_738_367) { 11 } else { 10u32 })?;"),
    ("council: 10 of any line before 11 and 5 of the first", "council.rs", "    let mut touched = Vec::new();", "    if let Some(at) = file.split_inclusive(|&byte| byte == b'\\n').position(|text| record(text).is_none()) {\n        return Err(Refused { number: 10, line: at as u32 + 1 });\n    }\n    let mut touched = Vec::new();"),
    ("council: line from 0", "council.rs", "(1..).zip(", "(0..).zip("),
    ("council: an unclosed last line accepted", "council.rs", "text.strip_suffix(b\"\\n\")?.split(", "text.strip_suffix(b\"\\n\").unwrap_or(text).split("),
    ("council: a carriage return before the line feed dropped", "council.rs", "text.strip_suffix(b\"\\n\")?.split(", "text.strip_suffix(b\"\\r\\n\").or(text.strip_suffix(b\"\\n\"))?.split("),
    ("council: an empty line passed over", "council.rs", "    let record = record(text).ok_or(10u32)?;", "    if text == b\"\\n\" {\n        return Ok(());\n    }\n    let record = record(text).ok_or(10u32)?;"),
    ("council: no bytes refused 10", "council.rs", "    let mut touched = Vec::new();", "    if file.is_empty() {\n        return Err(Refused { number: 10, line: 1 });\n    }\n    let mut touched = Vec::new();"),
    ("council: a buffer of 999 words accepted", "council.rs", "    if room < PAGE_BUFFER {", "    if room < PAGE_BUFFER - 1 {"),
    ("council: 16,001 bytes accepted", "council.rs", "    if file.len() > LONGEST_FILE {", "    if file.len() > LONGEST_FILE + 1 {"),
    ("council: 7 before 6", "council.rs", "    if room < PAGE_BUFFER {", "    if room < PAGE_BUFFER && file.len() <= LONGEST_FILE {"),
    ("council: 1,001 pages accepted (ends early if the buffer is too short for them)", "council.rs", "pub const MOST_PAGES: usize = 1_000;", "pub const MOST_PAGES: usize = 1_001;"),
    ("council: too many pages cut instead of refused", "council.rs", "        return Err(5);", "        touched.extend((first as u32..=last as u32).take(MOST_PAGES - touched.len()));\n        return Ok(());"),
    ("council: numbers wrapping at 64 bits", "council.rs", "sum.saturating_mul(10).saturating_add((digit - b'0') as u64)", "sum.wrapping_mul(10).wrapping_add((digit - b'0') as u64)"),
    ("council: numbers wrapping at 128 bits", "council.rs", "Some(field.iter().fold(0, |sum: u64, &digit| sum.saturating_mul(10).saturating_add((digit - b'0') as u64)))", "let sum = field.iter().fold(0, |sum: u128, &digit| sum.wrapping_mul(10).wrapping_add((digit - b'0') as u128));\n    Some(sum.min(u64::MAX as u128) as u64)"),
    ("council: the LBA's bytes wrapping at 64 bits", "council.rs", "record.lba as u128 * BLOCK;", "record.lba.wrapping_mul(512) as u128;"),
    ("council: the record's end wrapping at 64 bits", "council.rs", "let last_byte = start + record.size as u128 - 1;", "let last_byte = (start as u64).wrapping_add(record.size).wrapping_sub(1) as u128;"),
    ("council: more than 20 digits refused", "council.rs", "    if field.is_empty() || !field", "    if field.is_empty() || field.len() > 20 || !field"),
    ("council: leading zeros refused in the LBA", "council.rs", "let lba = integer(fields.next()?)?;", "let lba = integer(fields.next().filter(|field| field.len() == 1 || !field.starts_with(b\"0\"))?)?;"),
    ("council: leading zeros refused in the unit", "council.rs", "let unit = integer(fields.next()?)?;", "let unit = integer(fields.next().filter(|field| field.len() == 1 || !field.starts_with(b\"0\"))?)?;"),
    ("council: R refused", "council.rs", "b\"r\" | b\"R\" => Some(true),", "b\"r\" => Some(true),"),
    ("council: W refused", "council.rs", "b\"w\" | b\"W\" => Some(false),", "b\"w\" => Some(false),"),
    ("council: an opcode known by its first letter", "council.rs", "    match field {", "    match &field[..field.len().min(1)] {"),
    ("council: a timestamp without point and fraction accepted", "council.rs", "    let point = field", "    if integer(field).is_some() {\n        return Some(());\n    }\n    let point = field"),
    ("council: a timestamp's fraction left empty accepted", "council.rs", "    integer(&field[point + 1..])?;", "    if point + 1 < field.len() {\n        integer(&field[point + 1..])?;\n    }"),
    ("council: a second point accepted", "council.rs", "    integer(&field[point + 1..])?;", "    integer(field[point + 1..].split(|&byte| byte == b'.').next()?)?;"),
    ("council: falling timestamps refused", "council.rs", "    for (line, text) in (1..).zip(file.split_inclusive(|&byte| byte == b'\\n')) {", "    let mut before = 0.0;\n    for (line, text) in (1..).zip(file.split_inclusive(|&byte| byte == b'\\n')) {\n        let time = String::from_utf8_lossy(text).split(',').nth(4).and_then(|time| time.trim_end().parse::<f64>().ok());\n        if time.is_some_and(|time| time < before) {\n            return Err(Refused { number: 10, line });\n        }\n        before = time.unwrap_or(before);"),
    ("council: further fields refused", "council.rs", "    Some(Record { unit, lba, size, read })", "    fields.next().is_none().then_some(Record { unit, lba, size, read })"),
    ("council: an empty further field refused", "council.rs", "    Some(Record { unit, lba, size, read })", "    fields.all(|field| !field.is_empty()).then_some(Record { unit, lba, size, read })"),
    ("council: bytes over 127 refused in further fields", "council.rs", "    Some(Record { unit, lba, size, read })", "    fields.all(<[u8]>::is_ascii).then_some(Record { unit, lba, size, read })"),
    ("council: a refused call clears the buffer", "council.rs", "Err(Refused { number, line }) => Taken { number, line, count: 0 },", "Err(Refused { number, line }) => {\n            pages.fill(0);\n            Taken { number, line, count: 0 }\n        }"),
    ("council: a refused call leaves the pages of the lines before", "council.rs", "Err(Refused { number, line }) => Taken { number, line, count: 0 },", "Err(Refused { number, line }) => {\n            let before = file.split_inclusive(|&byte| byte == b'\\n').take(line.max(1) as usize - 1).map(<[u8]>::len).sum();\n            if let Ok(touched) = read_trace(&file[..before], unit, pages.len()) {\n                pages[..touched.len()].copy_from_slice(&touched);\n            }\n            Taken { number, line, count: 0 }\n        }"),
    ("council: later words set to zero", "council.rs", "            pages[..touched.len()].copy_from_slice(&touched);", "            pages.fill(0);\n            pages[..touched.len()].copy_from_slice(&touched);"),
    ("spc: the last page line without its line feed", "programs.rs", ".map(|page| format!(\"page={page}\\n\")).collect::<String>().into_bytes()", ".map(|page| format!(\"page={page}\")).collect::<Vec<String>>().join(\"\\n\").into_bytes()"),
    ("spc: a refused trace ends with status 1", "main.rs", "over_standard(|trace, output| output.write_all(&programs::spc(trace, unit)))", "over_standard(|trace, output| {\n        let text = programs::spc(trace, unit);\n        output.write_all(&text)?;\n        if text.starts_with(b\"refused=\") { Err(std::io::Error::other(\"refused\")) } else { Ok(()) }\n    })"),
    ("spc: a second argument passed over", "programs.rs", "let [argument] = arguments else {", "let [argument, ..] = arguments else {"),
    ("spc: a plus before the unit accepted", "council.rs", "    u32::try_from(integer(text)?).ok()", "    std::str::from_utf8(text).ok()?.parse().ok()"),
    ("spc: a unit too large cut to 32 bits", "council.rs", "    u32::try_from(integer(text)?).ok()", "    Some(integer(text)? as u32)"),
    ("spc: a wrong use told on standard output", "main.rs", "    eprintln!(\"second probe", "    println!(\"second probe"),
]


def run(command, **more):
    return subprocess.run(command, capture_output=True, text=True, **more)


def plant(fault):
    name, file, old, new = fault
    shutil.copytree(os.path.join(CLEAN, "src"), os.path.join(COPY, "src"), dirs_exist_ok=True)
    shutil.copy(os.path.join(CLEAN, "Cargo.toml"), COPY)
    path = os.path.join(COPY, "src", file)
    text = open(path).read()
    if text.count(old) != 1:
        sys.exit(f"{name}: the old text stands {text.count(old)} times")
    open(path, "w").write(text.replace(old, new))
    for other in os.listdir(os.path.join(COPY, "src")):
        os.utime(os.path.join(COPY, "src", other))
    built = run(["cargo", "build", "--release"], cwd=COPY)
    if built.returncode != 0:
        sys.exit(f"{name}: does not build\n{built.stderr}")


def compared(number):
    clean = os.path.join(os.path.dirname(HERE), "second/release/second")
    faulty = os.path.join(COPY, "target/release/second")
    begun = time.time()
    done = run(["nice", clean, "compare", "--seed", "1", "--size", "small", "--", faulty])
    with open(os.path.join(HERE, "logs", f"{number:02}.txt"), "w") as log:
        log.write(done.stdout)
    found = re.findall(r"^first difference of group (\w+) after (\d+) cases", done.stdout, re.M)
    total = re.search(r"^seed=1 cases=(\d+) differences=(\d+)$", done.stdout, re.M)
    return {"status": done.returncode, "found": found, "cases": int(total[1]), "differences": int(total[2]),
            "seconds": round(time.time() - begun)}


def code(text):
    lines = [line.strip().replace("|", "\\|") for line in text.split("\n")]
    fence = "``" if any("`" in line for line in lines) else "`"
    return "<br>".join(f"{fence}{line}{fence}" for line in lines)


def table(results):
    rows = ["# Planted faults", "",
            "Each row: one fault in a copy of `second/`, built, and `second compare --seed 1 --size small -- FAULTY` run by the clean",
            "program (`second/faults.py`). \"Found by\" gives every group with a difference and after how many of its cases the first one came.",
            "The last column counts as different also all later cases of a probe process in which the faulty copy ended early (a panic).",
            "The whole outputs, with the first difference of each group, go to `target/faults/logs/`.", "",
            "| No. | Fault | Old | New | Found by group, after cases | Differences of cases |", "|---|---|---|---|---|---|"]
    for number, (name, file, old, new) in enumerate(FAULTS, 1):
        got = results.get(str(number))
        if not got:
            continue
        found = ", ".join(f"{group} {cases}" for group, cases in got["found"]) or "not found (harmless)"
        share = f"{got['differences']} of {got['cases']}"
        rows.append(f"| {number} | {name.replace('|', chr(92) + '|')} | {file}: {code(old)} | {code(new)} | {found} | {share} |")
    return "\n".join(rows) + "\n"


def main():
    os.makedirs(os.path.join(HERE, "logs"), exist_ok=True)
    os.makedirs(COPY, exist_ok=True)
    kept = os.path.join(HERE, "results.json")
    results = json.load(open(kept)) if os.path.exists(kept) else {}
    wanted = [int(word) for word in sys.argv[1:]] or range(1, len(FAULTS) + 1)
    if wanted == [0]:  # only the table again
        wanted = []
        open(os.path.join(HERE, "faults.md"), "w").write(table(results))
    for number in wanted:
        plant(FAULTS[number - 1])
        results[str(number)] = compared(number)
        print(number, FAULTS[number - 1][0], results[str(number)], flush=True)
        json.dump(results, open(kept, "w"), indent=1)
        open(os.path.join(HERE, "faults.md"), "w").write(table(results))


main()
