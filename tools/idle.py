#!/usr/bin/env python3
"""idle.py [--jobs N] [NAME ..]: idle versions and easy errors, document 01's and some of ours, tried as whole chips.

A must-fail edit changes one crate. Here an idle version is made in a copy of the repository: code and definition are changed alike, and the
proofs that name the changed number, test or order with them, so that the crates below still prove and only the statement that carries the
weight is left to refuse it. For each version it says which crates are proved and where the first error of the others stands, and it ends
with exit code 1 if that is not what the table below expects. It takes about a minute for each version, N at a time (as many as there are
processors), and is no part of the gate.
"""
import concurrent.futures
import os
import queue
import re
import shutil
import subprocess
import sys
import tempfile

ROOT = os.path.dirname(os.path.dirname(os.path.abspath(__file__)))

# a Resource sample's counters as they are, not as they were copied at its trigger
SENT = ('.bank.shadows', '.bank.values')

# where a sample's counters go last first: how they are read, what the changed proofs use, and the laws of `reverse` that were missing
READ_LAST_FIRST = ('gather counter_widths', 'counters_in')
USES = ('use Rattle.samples.specs.Layout.{', 'use mathlib.Core.List.{reverse}\nuse Rattle.std.proofs.lemmas.List.{reverse-reverse, length-reverse}\nuse Rattle.samples.specs.Read.{counters_in}\nuse Rattle.samples.proofs.Gather.{reverse_at, within_reverse}\nuse Rattle.samples.specs.Layout.{')
REVERSE_LAWS = '''
pub reverse_at : (xs : List ℕ) (i j : ℕ) → suc (i + j) ≡ length xs → get_or (reverse xs) j 0 ≡ get_or xs i 0
reverse_at xs i j e = let there : length xs - 1 - j ≡ i = omega arith in get_or-reverse xs j 0 (omega arith) ∙ ap (λ (k : ℕ). get_or xs k 0) there

pub within_reverse : (ns ms xs ys : List ℕ) → within ns xs ≡ true → within (reverse_aux ns ms) (reverse_aux xs ys) ≡ within ms ys
unfolding within
within_reverse [] ms [] ys e = refl
within_reverse [] ms (x ∷ xs) ys e = absurd (false≢true e)
within_reverse (n ∷ ns) ms [] ys e = absurd (false≢true e)
within_reverse (n ∷ ns) ms (x ∷ xs) ys e = within_reverse ns (n ∷ ms) xs (x ∷ ys) (both_right (ltb x (256 ^ n)) (within ns xs) e) ∙ ap (λ (b : Bool). b && within ms ys) (both_left (ltb x (256 ^ n)) (within ns xs) e)
'''


# bits 0 to 8 with an even number of ones: the table (the odd one is left over), and the proof that no word is 0, which byte 0's then is
EVEN_TABLE = 'const PARITY: [u8; 256] = [%s]; const ODD: [u8; 256] = [' % ', '.join(str(bin(byte).count('1') % 2) for byte in range(256))
WORD_SOME = '''word_some last b e =
    let none : b ≡ 0 = omega arith in
    let odd : parity_of b ≡ 1 = ap parity_of none ∙ zero_parity in
    omega arith
'''


def swapped(number, place, other_number, other_place):
    """Two registers exchange their addresses, in code and definition."""
    code, map_ = 'crates/chip/src/place.rt', 'crates/chip/specs/Place.antt'
    return [
        (code, '%d => Place::%s,' % (number, place), '%d => Place::%s,' % (number, other_place)),
        (code, '%d => Place::%s,' % (other_number, other_place), '%d => Place::%s,' % (other_number, place)),
        (map_, '(cond (eqb a %d) %s' % (number, place), '(cond (eqb a %d) %s' % (number, other_place)),
        (map_, '(cond (eqb a %d) %s' % (other_number, other_place), '(cond (eqb a %d) %s' % (other_number, place)),
    ]


def in_samples(files):
    """A version's changes, from those of each file of the crate `samples`."""
    return [('crates/samples/' + name, *texts) for name, changes in files.items() for texts in changes]


# name: what it does, its changes (file, old text, new text), the crates that still prove, and the others with the law that refuses;
# a change is made wherever its old text stands, and that is once unless the change ends with how often
VERSIONS = {
    'room_for_seven': (
        'the queue is full with seven samples', [
            ('crates/queue/src/queue.rt', '8 <= self.held', '7 <= self.held'),
            ('crates/queue/specs/Queue.antt', 'full q = leb 8 q.held', 'full q = leb 7 q.held'),
        ], ['queue'], [('chip', 'rows_room')]),
    'loses_every_trace_trigger': (
        'every Trace trigger lacks room', [
            ('crates/queue/src/queue.rt', 'resource && self.busy()', 'if resource { self.busy() } else { true }'),
            ('crates/queue/src/queue.rt', 'ensures { result ≡ (resource && busy self) }', 'ensures { result ≡ cond resource (busy self) true }'),
            ('crates/queue/src/queue.rt', '{◌≡◌, ◌&&◌, eqb, ', '{◌≡◌, true, eqb, '),
            ('crates/chip/specs/Chip.antt', 'blocked resource q = resource && busy q', 'blocked resource q = cond resource (busy q) true'),
            ('crates/chip/specs/Chip.antt', 'Bool, false, cond, ', 'Bool, true, false, cond, '),
        ], ['queue'], [('chip', 'rows_room')]),
    'refuses_every_trigger': (
        'no processor lines are one line, so every trigger is answered with 4', [
            ('crates/chip/src/line.rt', 'lines.count_ones() == 1', 'lines.count_ones() == 9'),
            ('crates/chip/specs/Chip.antt', 'one_line lines = eqb (ones_in 8 lines) 1', 'one_line lines = eqb (ones_in 8 lines) 9'),
            ('crates/chip/proofs/line/Line/of/Answers.antt', 'eq-eqb (ones_in 8 lines) 1', 'eq-eqb (ones_in 8 lines) 9', 2),
            ('crates/chip/proofs/line/Line/of/Answers.antt', 'ne_eqb (ones_in 8 lines) 1', 'ne_eqb (ones_in 8 lines) 9'),
            ('crates/chip/proofs/line/Line/of/Answers.antt', 'lines-eq1', 'lines-eq9', 6),
            ('crates/chip/proofs/LineLaws.antt', 'ones_in 8 lines ≡ 1 = eqb-true (ones_in 8 lines) 1 e', 'ones_in 8 lines ≡ 9 = eqb-true (ones_in 8 lines) 9 e'),
            ('crates/chip/proofs/LineLaws.antt', 'ap (λ (n : ℕ). eqb n 1) (sym (ones_low 8 lines))', 'ap (λ (n : ℕ). eqb n 9) (sym (ones_low 8 lines))'),
        ], [], [('chip', 'one_line_lem')]),
    'first_word_again': (
        'every send gives the first word of the first sample', [
            ('crates/queue/src/queue.rt', '        let sent = self.sent;\n        if sent < count {\n            return word_by(', '        let sent = self.sent % 1;\n        if sent < count {\n            return word_by('),
            ('crates/queue/specs/Queue.antt', '(first_held q))) q.sent 0', '(first_held q))) (q.sent % 1) 0'),
            ('crates/queue/specs/Queue.antt', 'Prelude.{ℕ, zero, suc, ◌+◌, ◌-◌, ', 'Prelude.{ℕ, zero, suc, ◌+◌, ◌-◌, ◌%◌, '),
            ('crates/queue/specs/Table.antt', '(first_held q)))) q.sent 0', '(first_held q)))) (q.sent % 1) 0'),
            ('crates/queue/specs/Table.antt', 'Prelude.{ℕ, cond, ', 'Prelude.{ℕ, ◌%◌, cond, '),
            ('crates/queue/proofs/TableLaws.antt', 'get_or ws q.sent 0', 'get_or ws (q.sent % 1) 0'),
            ('crates/queue/proofs/TableLaws.antt', 'first) q.sent', 'first) (q.sent % 1)', 2),
            ('crates/queue/proofs/QueueLaws.antt', 'use Prim.Native.Nat.{ℕ, ◌<◌}', 'use Prim.Native.Nat.{ℕ, ◌%◌, ◌≤◌, ◌<◌}\nuse native.Mathlib.Omega.{arith}'),
            ('crates/queue/proofs/QueueLaws.antt', 'sixteen) q.sent h) ∙ e)', 'sixteen) (q.sent % 1) (omega arith)) ∙ e)'),
            ('crates/queue/proofs/queue/Queue/next_word/Answers.antt', 'use native.Mathlib.Omega.{arith}', 'use Prim.Native.Nat.{◌%◌}\nuse native.Mathlib.Omega.{arith}'),
            ('crates/queue/proofs/queue/Queue/next_word/Answers.antt', '(add-one a.self.sent)', '(add-one (a.self.sent % 1))'),
            ('crates/queue/proofs/queue/Queue/next_word/Answers.antt', '(word_by t) a.self.sent (omega arith))', '(word_by t) (a.self.sent % 1) (omega arith))'),
            ('crates/queue/proofs/queue/Queue/next_word/Answers.antt', '{n = a.self.sent}', '{n = a.self.sent % 1}'),
        ], [], [('queue', 'words_first')]),
    'counters_taken_when_sent': (
        "a Resource sample's counters are those of the moment at which its words are sent", [
            ('crates/chip/src/chip.rt', *SENT, 2),
            ('crates/chip/specs/Chip.antt', *SENT, 3),
            ('crates/chip/specs/Table.antt', *SENT),
            ('crates/chip/specs/Sent.antt', 'held_sample c.bank.shadows', 'held_sample c.bank.values'),
            ('crates/chip/proofs/Refusals.antt', *SENT),
            ('crates/chip/proofs/TableLaws.antt', *SENT, 5),
            ('crates/chip/proofs/Sends.antt', *SENT, 33),
            ('crates/chip/proofs/Bounds.antt', *SENT, 2),
            ('crates/chip/proofs/Words.antt', 'within_length counter_widths c.bank.shadows s.shadows', 'within_length counter_widths c.bank.values s.values'),
            ('crates/chip/proofs/Words.antt', 'c.bank.shadows', 'c.bank.values', 6),
        ], ['chip', 'marked'], [('history', 'send_kept')]),
    'first_sample_only': (
        'the first trigger is honoured, the later ones are only answered "taken"', [
            ('crates/queue/src/queue.rt', 'if self.held < 8 {', 'if self.held < 1 {'),
            ('crates/queue/specs/Queue.antt', 'pushed h q = cond (ltb q.held 8)', 'pushed h q = cond (ltb q.held 1)'),
            ('crates/queue/proofs/BoundLaws.antt', 'push_bounds h q e = go (ltb q.held 8) refl', 'push_bounds h q e = go (ltb q.held 1) refl'),
            ('crates/queue/proofs/BoundLaws.antt', 'go : (b : Bool) → ltb q.held 8 ≡ b → inside_queue w (cond b more q)', 'go : (b : Bool) → ltb q.held 1 ≡ b → inside_queue w (cond b more q)'),
            ('crates/queue/proofs/BoundLaws.antt', 'few = omega (arith, ltb-true q.held 8 t)', 'few = omega (arith, ltb-true q.held 1 t)'),
            ('crates/queue/proofs/BoundLaws.antt', 'push_places h q e = go (ltb q.held 8)', 'push_places h q e = go (ltb q.held 1)'),
            ('crates/history/proofs/HoldsLaws.antt', '(sym (lt-ltb q.held 8 room))', '(sym (lt-ltb q.held 1 room))'),
        ], ['queue', 'chip'], [('history', 'holds_pushed'), ('marked', 'marked_examples')]),
    'loses_every_trigger': (
        'every trigger lacks room, Resource triggers too', [
            ('crates/queue/src/queue.rt', '8 <= self.held', '0 <= self.held'),
            ('crates/queue/specs/Queue.antt', 'full q = leb 8 q.held', 'full q = leb 0 q.held'),
        ], ['queue'], [('chip', 'rows_room')]),
    'overruns_counted_twice': (
        'a lost trigger adds two to the Overrun Counter', [
            ('crates/control/src/control.rt', 'self.overrun.wrapping_add(1)', 'self.overrun.wrapping_add(2)'),
            ('crates/control/specs/Control.antt', '(grown c.overrun 1)', '(grown c.overrun 2)'),
        ], ['control', 'chip', 'marked'], [('history', 'lost_control')]),
    'buffer_count_invented': (
        'a buffer send writes its words and returns the Timestamp for their number', [
            ('crates/chip/src/chip.rt', 'return Answer::done(self, sent.count);', 'return Answer::done(self, self.stamp);'),
            ('crates/chip/specs/Chip.antt', 'done s.count (with_queue s.queue c)', 'done c.stamp (with_queue s.queue c)'),
        ], [], [('chip', 'fill_answer')]),
    'same_word_again': (
        'every field of a sample is 0, so that all words are the same but for the end mark', [
            ('crates/chip/src/chip.rt', 'user: bits % TWO_48,', 'user: bits % 1,'),
            ('crates/chip/src/chip.rt', 'stamp: self.stamp % TWO_40,', 'stamp: self.stamp % 1,'),
            ('crates/chip/src/chip.rt', 'source: self.source(line.number as usize),', 'source: self.source(line.number as usize) % 1,'),
            ('crates/control/src/control.rt', 'u32::from(line) + 8', 'u32::from(line) % 1 + 8'),
            ('crates/chip/specs/Chip.antt', 'user = bits % 2 ^ 48;', 'user = bits % 1;'),
            ('crates/chip/specs/Chip.antt', 'stamp = c.stamp % 2 ^ 40;', 'stamp = c.stamp % 1;'),
            ('crates/chip/specs/Chip.antt', 'source = get_or c.sources line 0;', 'source = get_or c.sources line 0 % 1;'),
            ('crates/control/specs/Control.antt', 'header_of line resource lost = line + 8', 'header_of line resource lost = line % 1 + 8'),
            ('crates/chip/proofs/Words.antt', '(within_at 4 8 c.sources s.sources line) (omega arith)', '(omega arith) (omega arith)'),
        ], ['control', 'chip'], [('history', 'header_same'), ('marked', 'marked_examples')]),
    'waits_and_overruns_exchanged': (
        'addresses 5 and 6 are exchanged', swapped(5, 'Waits', 6, 'Overruns'),
        ['chip', 'marked'], [('history', 'write_kept')]),
    'clear_and_disable_exchanged': (
        'addresses 10 and 12 are exchanged', swapped(10, 'Clear', 12, 'Disable'),
        ['chip', 'marked'], [('history', 'write_kept')]),
    'filter_and_mux_exchanged': (
        'addresses 4 and 8 are exchanged', swapped(4, 'Filter', 8, 'Mux'),
        ['chip'], [('history', 'write_kept'), ('marked', 'marked_examples')]),
    'enable_and_disable_exchanged': (
        'addresses 11 and 12 are exchanged', swapped(11, 'Enable', 12, 'Disable'),
        [], [('chip', 'seen')]),
    'trace_and_resource_exchanged': (
        '96 to 111 are Resource triggers, 112 to 127 Trace triggers', [
            ('crates/chip/src/place.rt', 'Place::Trigger(true, (address - 112)', 'Place::Trigger(false, (address - 112)'),
            ('crates/chip/src/place.rt', 'Place::Trigger(false, (address - 96)', 'Place::Trigger(true, (address - 96)'),
            ('crates/chip/specs/Place.antt', 'Trigger true (a - 112)', 'Trigger false (a - 112)'),
            ('crates/chip/specs/Place.antt', 'Trigger false (a - 96)', 'Trigger true (a - 96)'),
        ], [], [('chip', 'place_trigger')]),
    'even_bit_wins': (
        'where both bits of a CSR pair are 1, the even one wins', [
            ('crates/control/src/control.rt', '    if odd {\n        return false;\n    }\n    if even {\n        return true;\n    }\n', '    if even {\n        return true;\n    }\n    if odd {\n        return false;\n    }\n'),
            ('crates/control/specs/Control.antt', 'pair even odd before = cond odd false (cond even true before)', 'pair even odd before = cond even true (cond odd false before)'),
        ], ['control', 'chip', 'marked'], [('history', 'pair_turned')]),
    'waits_exchanged': (
        'CSR bits 2 and 3 are read wait, 4 and 5 write wait', [
            ('crates/control/src/control.rt', 'self.writewait = pair(bits / 4 % 2 == 1, bits / 8 % 2 == 1,', 'self.writewait = pair(bits / 16 % 2 == 1, bits / 32 % 2 == 1,'),
            ('crates/control/src/control.rt', 'self.readwait = pair(bits / 16 % 2 == 1, bits / 32 % 2 == 1,', 'self.readwait = pair(bits / 4 % 2 == 1, bits / 8 % 2 == 1,'),
            ('crates/control/specs/Control.antt', '(pair (bit d 2) (bit d 3) c.writewait)', '(pair (bit d 4) (bit d 5) c.writewait)'),
            ('crates/control/specs/Control.antt', '(pair (bit d 4) (bit d 5) c.readwait)', '(pair (bit d 2) (bit d 3) c.readwait)'),
        ], ['control', 'chip'], [('history', 'configured_control'), ('marked', 'marked_examples')]),
    'flags_exchanged': (
        'CSR bit 8 reads as flag 9, bit 9 as flag 8', [
            ('crates/control/src/control.rt', '256 * u64::from(self.flagfull) + 512 * u64::from(self.flagbusy)', '512 * u64::from(self.flagfull) + 256 * u64::from(self.flagbusy)'),
            ('crates/control/specs/Control.antt', '(256 * one c.flagfull + 512 * one c.flagbusy)', '(512 * one c.flagfull + 256 * one c.flagbusy)'),
        ], ['control', 'chip'], [('history', 'csr_same'), ('marked', 'marked_examples')]),
    'off_and_filtered_exchanged': (
        'reply 6 is "filtered", 7 "sampling is off"', [
            ('crates/control/src/reply.rt', 'Reply::Off => 6,', 'Reply::Off => 7,'),
            ('crates/control/src/reply.rt', 'Reply::Filtered => 7,', 'Reply::Filtered => 6,'),
            ('crates/control/specs/Reply.antt', 'row_of Off v = record { number = 6;', 'row_of Off v = record { number = 7;'),
            ('crates/control/specs/Reply.antt', 'row_of Filtered v = record { number = 7;', 'row_of Filtered v = record { number = 6;'),
            ('crates/control/proofs/ReplyLaws.antt', 'Off ∷ Filtered ∷ Lost', 'Filtered ∷ Off ∷ Lost'),
        ], ['control'], [('chip', 'written_trigger')]),
    'lost_mark_never_in_the_header': (
        "a sample's header never has bit 4", [
            ('crates/control/src/control.rt', '16 * u32::from(lost)', '0 * u32::from(lost)'),
            ('crates/control/specs/Control.antt', '16 * one lost', '0 * one lost'),
        ], ['control', 'chip', 'marked'], [('history', 'header_same')]),
    'every_sample_of_line_0': (
        "a sample has line 0's number and Source Address, whatever the line", [
            ('crates/chip/src/chip.rt', 'self.sample_now(resource, line, bits)', 'self.sample_now(resource, Line { number: 0 }, bits)'),
            ('crates/chip/specs/Chip.antt', 'queue = pushed (sample_now resource line bits c)', 'queue = pushed (sample_now resource 0 bits c)'),
            ('crates/chip/specs/Sent.antt', '(sample_now resource line bits c)', '(sample_now resource 0 bits c)'),
            ('crates/chip/proofs/Bounds.antt', 'let sample : Held = sample_now r line bits c in', 'let sample : Held = sample_now r 0 bits c in'),
            ('crates/chip/proofs/Bounds.antt', 'push_places (sample_now true line bits c)', 'push_places (sample_now true 0 bits c)'),
            ('crates/chip/proofs/Bounds.antt', 'push_places (sample_now false line bits c)', 'push_places (sample_now false 0 bits c)'),
            ('crates/chip/proofs/Words.antt', '(sample_now r line bits c) (header_small line small r c.control.lost) (within_at 4 8 c.sources s.sources line)', '(sample_now r 0 bits c) (header_small 0 (omega arith) r c.control.lost) (within_at 4 8 c.sources s.sources 0)'),
            ('crates/chip/proofs/Words.antt', 'header_kind line small r c.control.lost', 'header_kind 0 (omega arith) r c.control.lost', 2),
        ], ['chip', 'marked'], [('history', 'by_fate_lem')]),
    'software_events_by_field_01': (
        'field 01 counts software events, 10 external ones', [
            ('crates/counters/src/switches.rt', 'Kind::External => self.enabled & (!self.high & self.low)', 'Kind::External => self.enabled & (self.high & !self.low)'),
            ('crates/counters/src/switches.rt', 'Kind::Software => self.enabled & (self.high & !self.low)', 'Kind::Software => self.enabled & (!self.high & self.low)'),
            ('crates/counters/src/switches.rt', 'return on & (high & !low);', 'return on & (!high & low);'),
            ('crates/counters/specs/Due.antt', 'selects External high low = not high && low', 'selects External high low = high && not low'),
            ('crates/counters/specs/Due.antt', 'selects Software high low = high && not low', 'selects Software high low = not high && low'),
            ('crates/counters/specs/Due.antt', 'due_mask External s = bit_and s.enabled (bit_and (2 ^ 16 - 1 - s.high) s.low)', 'due_mask External s = bit_and s.enabled (bit_and s.high (2 ^ 16 - 1 - s.low))'),
            ('crates/counters/specs/Due.antt', 'due_mask Software s = bit_and s.enabled (bit_and s.high (2 ^ 16 - 1 - s.low))', 'due_mask Software s = bit_and s.enabled (bit_and (2 ^ 16 - 1 - s.high) s.low)'),
            ('crates/counters/proofs/BitLaws.antt', 'mask_due External s i h p q =', "mask_due Software' s i h p q ="),
            ('crates/counters/proofs/BitLaws.antt', 'mask_due Software s i h p q =', 'mask_due External s i h p q ='),
            ('crates/counters/proofs/BitLaws.antt', "mask_due Software' s i h p q =", 'mask_due Software s i h p q ='),
            ('crates/counters/proofs/switches/Switches/fires/Answers.antt', '(bit a.self.high a.index && not (bit a.self.low a.index))', '(not (bit a.self.high a.index) && bit a.self.low a.index)'),
        ], [], [('counters', 'selects_field')]),
    'every_send_answered_5': (
        'at most 8 are held, so every single send is answered with 5', [
            ('crates/chip/src/chip.rt', 'if self.queue.is_empty() {', 'if self.queue.held <= 8 {'),
            ('crates/chip/specs/Chip.antt', ', ltb, eqb, get_or, ', ', leb, ltb, eqb, get_or, '),
            ('crates/chip/specs/Chip.antt', 'none_held held = eqb held 0', 'none_held held = leb held 8'),
        ], [], [('chip', 'all_rows')]),
    'every_value_0': (
        'the value of every reply 0 is 0, so every word sent and every count of a buffer send is', [
            ('crates/control/src/answer.rt', '            value,\n', '            value: value % 1,\n'),
            ('crates/control/src/answer.rt', 'Prelude.{◌≡◌}', 'Prelude.{◌≡◌, ◌%◌}'),
            ('crates/control/src/answer.rt', 'told_row (row_of Done value) chip', 'told_row (row_of Done (value % 1)) chip'),
            ('crates/chip/specs/Chip.antt', 'done value c = told_row (row_of Done value) c', 'done value c = told_row (row_of Done (value % 1)) c'),
        ], ['control'], [('chip', 'given_sends')]),
    'reset_only_clears_counters': (
        'a write at 0 clears the counters of its set bits and nothing else', [
            ('crates/chip/src/place.rt', '0 => Place::Reset,', '0 => Place::Clear,'),
            ('crates/chip/specs/Place.antt', 'cond (eqb a 0) Reset', 'cond (eqb a 0) Clear'),
        ], [], [('chip', 'soft_reset_lem')]),
    'nine_held_inside': (
        'a record with nine samples held is inside the bounds of 15', [
            ('crates/queue/src/queue.rt', 'if 8 < self.held {', 'if 9 < self.held {'),
            ('crates/queue/specs/Queue.antt', 'inside_queue w q = leb q.held 8', 'inside_queue w q = leb q.held 9'),
            ('crates/queue/proofs/BoundLaws.antt', 'pub few : q.held ≤ 8', 'pub few : q.held ≤ 9'),
            ('crates/queue/proofs/BoundLaws.antt', 'leb q.held 8', 'leb q.held 9', 3),
            ('crates/queue/proofs/BoundLaws.antt', 'leb-true q.held 8', 'leb-true q.held 9', 2),
        ], ['queue'], [('chip', 'inside_bounded')]),
    'even_parity': (
        'bits 0 to 8 have an even number of ones, in table, writer and reader alike', [
            ('crates/words/src/parity.rt', 'const PARITY: [u8; 256] = [', EVEN_TABLE),
            ('crates/words/specs/Word.antt', 'parity_of b = (ones_in 8 b + 1) % 2', 'parity_of b = ones_in 8 b % 2'),
            ('crates/words/specs/Word.antt', 'odd_ones w = eqb (ones_in 9 w % 2) 1', 'odd_ones w = eqb (ones_in 9 w % 2) 0'),
            ('crates/words/proofs/WordLaws.antt', '(ones_in 9 w % 2) 1 (w / 256 % 2) ((ones_in 8 (w % 256) + 1) % 2)', '(ones_in 9 w % 2) 0 (w / 256 % 2) (ones_in 8 (w % 256) % 2)'),
            ('crates/words/proofs/WordLaws.antt', 'zero_parity : parity_of 0 ≡ 1', 'zero_parity : parity_of 0 ≡ 0'),
            ('crates/words/proofs/WordLaws.antt', '(b : ℕ) → word_of last b ≡ 0 → ⊥', '(b : ℕ) → word_of last b ≡ 0 → b ≡ 0'),
            ('crates/words/proofs/WordLaws.antt', WORD_SOME, 'word_some last b e = omega arith\n'),
        ], ['words'], [('samples', 'word_ones')]),
    'counters_15_to_0': (
        "a Resource sample's counters are sent and read last first", in_samples({
            'src/sample.rt': [('counters[i] as u64', 'counters[15 - i] as u64')],
            'src/writer.rt': [('*counter as u64', 'counters[15 - i] as u64')],
            'src/reader.rt': [
                ('    }\n    counters\n', '    }\n    counters.reverse();\n    counters\n'), ('specs.Read.{', 'specs.Read.{counters_in, '), READ_LAST_FIRST],
            'specs/Layout.antt': [('Prelude.{', 'Prelude.{reverse, '), ('spread counter_widths counters', 'spread counter_widths (reverse counters)')],
            'specs/Read.antt': [('Prelude.{', 'Prelude.{reverse, '), READ_LAST_FIRST, ('-- the sample that', 'abbrev pub counters_in : List ℕ → List ℕ\ncounters_in bs = reverse (gather counter_widths bs)\n\n-- the sample that')],
            'proofs/Gather.antt': [
                ('use lib.ListN.{', 'use Prim.Native.Nat.{◌+◌, ◌-◌}\nuse mathlib.Core.List.{reverse, reverse_aux}\nuse Rattle.std.proofs.lemmas.List.{get_or-reverse}\nuse lib.ListN.{'),
                ('(drop n bs) (drop_below n bs h))\n', '(drop n bs) (drop_below n bs h))\n' + REVERSE_LAWS)],
            'proofs/ReadLaws.antt': [('specs.Read.{', 'specs.Read.{counters_in, '), (*READ_LAST_FIRST, 3)],
            'proofs/SampleLaws.antt': [
                USES, ('counter_widths s.counters', 'counter_widths (reverse s.counters)', 4),
                ('spread_length counter_widths (reverse s.counters) sixteen', 'spread_length counter_widths (reverse s.counters) (length-reverse s.counters ∙ sixteen)')],
            'proofs/RoundTrip.antt': [
                USES, ('(gather counter_widths', '(counters_in', 4), ('spread counter_widths (cond r', 'spread counter_widths (reverse (cond r'), ('(replicate 16 0))) []', '(replicate 16 0)))) []'), ('unfolding counter_bytes\n', 'unfolding counter_bytes within\n'),
                ('gather_spread counter_widths s.counters rest parts.1', 'ap reverse (gather_spread counter_widths (reverse s.counters) rest (within_reverse counter_widths [] s.counters [] parts.1)) ∙ reverse-reverse s.counters')],
            'proofs/Theorems.antt': [
                USES, ('unfolding writable sample_of gather', 'unfolding writable sample_of gather within'), ('(resource h) cs', '(resource h) (reverse cs)', 4),
                ('within_gather counter_widths', 'within_reverse counter_widths [] cs [] (within_gather counter_widths'), ('(map_below ws))) in', '(map_below ws)))) in')],
            'proofs/PlaceLaws.antt': [
                USES, ('s.counters (p - start) (zero-lt-suc 3) sixteen', '(reverse s.counters) (p - start) (zero-lt-suc 3) (length-reverse s.counters ∙ sixteen)'),
                ('(get_or s.counters m 0) n) whole part', '(get_or (reverse s.counters) m 0) n) whole part ∙ ap (λ (x : ℕ). byte_at x k) (reverse_at s.counters (15 - i) i (omega arith))')],
            'proofs/reader/decode/Answers.antt': [USES, READ_LAST_FIRST],
            'proofs/reader/counters_of/Answers.antt': [
                ('List.{List, map}', 'List.{List, map, reverse}'), ('gather_each c.loop', 'c.reverse.ensures ∙ ap reverse (gather_each c.loop'), ('(λ i h. c.loop-i.invariant i (omega arith))', '(λ i h. c.loop-i.invariant i (omega arith)))')],
            'proofs/sample/counter_byte/Answers.antt': [
                USES, ('Nat.{ℕ, ', 'Nat.{ℕ, ◌-◌, ◌/◌, '),
                ('a.counters a.place (zero-lt-suc 3) (search rules)', '(reverse a.counters) a.place (zero-lt-suc 3) (length-reverse a.counters ∙ search rules)', 2),
                ('rules))\n\n', 'rules) ∙ ap (λ (x : ℕ). byte_at x (a.place % 4)) (reverse_at a.counters (15 - a.place / 4) (a.place / 4) (search rules)))\n\n'), ('default a.counters 0 (search rules)', 'default (reverse a.counters) 0 (rw length-reverse (search rules))')],
            'proofs/writer/put_counters/Invariants.antt': [('List.{List}', 'List.{List, reverse}'), ('(counter_bytes l.counter-items)', '(counter_bytes l.counters)'), ('(drop l.i l.counter-items)', '(drop l.i (reverse l.counters))')],
            'proofs/writer/put_counters/Answers.antt': [
                USES, ('lib.Seq.{', 'lib.Seq.{sets, '), ('use Rattle.samples.proofs.PutLaws', 'use Rattle.words.specs.Bytes.{low_bytes}\nuse Rattle.words.proofs.PutLaws.{plain}\nuse Rattle.samples.proofs.PutLaws'),
                ('let xs = c.args.counters in', 'let xs = reverse c.args.counters in'), ('(drop-cons xs l.i 0 (omega arith))', '(drop-cons xs l.i 0 (omega (arith, length-reverse c.args.counters)))'), ('(drop l.i c.args.counters)', '(drop l.i (reverse c.args.counters))'),
                ('(sym c.put_number.ensures j)', '(sym (c.put_number.ensures ∙ ap (λ (x : ℕ). sets l.out p (plain (low_bytes 4 x))) (sym (reverse_at c.args.counters (15 - l.i) l.i (omega arith)))) j)')],
        }), [], [('samples', 'in_counter')]),
    'hundredth_is_a_99th': (
        "document 02's Wish 2: at the hundredth a slow event falls on every 99th tick, and the bound of 15 goes with it", [
            ('crates/counters/src/switches.rt', 'if self.hundredth { 100 } else { 10 }', 'if self.hundredth { 99 } else { 10 }'),
            ('crates/counters/src/switches.rt', '(ticks / 100) as u32', '(ticks / 99) as u32'),
            ('crates/counters/src/switches.rt', '(ticks % 100) as u8', '(ticks % 99) as u8'),
            ('crates/counters/specs/Due.antt', 'divisor_of hundredth = cond hundredth 100 10', 'divisor_of hundredth = cond hundredth 99 10'),
            ('crates/chip/specs/Rows.antt', 'c.switches.phase < 100', 'c.switches.phase < 99'),
            ('crates/chip/proofs/RoomLaws.antt', 'c.switches.phase < 100', 'c.switches.phase < 99'),
        ], ['counters', 'chip', 'marked'], [('history', 'slow_same')]),
    'discards_after_a_reset': (
        "document 02's Wish 7: neither reset sets write wait, and what is said by numbers goes with it", [
            ('crates/control/src/control.rt', 'writewait: true,', 'writewait: false,'),
            ('crates/control/specs/Control.antt', 'writewait = true; readwait = false; flagfull = false;', 'writewait = false; readwait = false; flagfull = false;'),
            ('crates/control/proofs/FreshLaws.antt', '≡ 4', '≡ 0'),
            ('crates/chip/proofs/Resets.antt', '1 ∷ replicate 86 0', '0 ∷ replicate 86 0', 3),
            ('crates/chip/proofs/Resets.antt', 'done 4', 'done 0', 5),
        ], ['control', 'chip', 'marked'], [('history', 'reset_record')]),
    'overrun_notices_a_wait': (
        "document 02's Wish 8: a wait makes the Overrun Counter the Wait Counter's number", [
            ('crates/control/src/control.rt', 'self.wait = self.wait.wrapping_add(1);', 'self.wait = self.wait.wrapping_add(1); self.overrun = self.wait;'),
            ('crates/control/specs/Control.antt', 'waited c = with_errors (grown c.wait 1) c.overrun c', 'waited c = with_errors (grown c.wait 1) (grown c.wait 1) c'),
        ], ['control', 'chip', 'marked'], [('history', 'waited_control')]),
}


def change(folder, changes):
    """Makes the changes of a version, and gives the files as they were."""
    before, after = {}, {}
    for name, old, new, *times in changes:
        path = os.path.join(folder, name)
        if path not in before:
            with open(path, encoding='utf-8') as file:
                before[path] = after[path] = file.read()
        if [after[path].count(old)] != (times or [1]):
            sys.exit('idle: %s has this text %d times: %s' % (name, after[path].count(old), old))
        after[path] = after[path].replace(old, new)
    for path, text in after.items():
        write(path, text)
    return before


def write(path, text):
    with open(path, 'w', encoding='utf-8') as file:
        file.write(text)


def check(folder, crate):
    """None if the crate is proved, else the law that the first error names."""
    run = subprocess.run(['rt', 'check', '--jobs', '1'], cwd=os.path.join(folder, 'crates', crate), capture_output=True, text=True)
    said = run.stdout + run.stderr
    if run.returncode == 0 and re.findall(r'^logic=(\S+)', said, re.M)[-1:] == ['proved']:
        return None
    found = re.search(r': error: `([^`]+)`', said)
    return found.group(1) if found else 'no law named'


def tried(name, folders):
    """What a version's crates gave, as lines, and how many are not as the table says."""
    says, changes, proved, refused = VERSIONS[name]
    lines, bad, before, folder = ['%s: %s' % (name, says)], 0, {}, folders.get()
    try:
        before = change(folder, changes)
        for crate, law in [(crate, None) for crate in proved] + refused:
            found = check(folder, crate)
            as_expected = found == law
            bad += not as_expected
            lines.append('  %s: %s%s' % (crate, 'proved' if found is None else 'refused at `%s`' % found,
                                         '' if as_expected else ', NOT AS EXPECTED (%s)' % (law or 'proved')))
    finally:
        for path, text in before.items():
            write(path, text)
        folders.put(folder)
    return lines, bad


def main():
    names = sys.argv[1:]
    lanes = os.cpu_count()
    if names[:1] == ['--jobs']:
        lanes, names = int(names[1]), names[2:]
    names = names or list(VERSIONS)
    wrong = [name for name in names if name not in VERSIONS]
    if wrong:
        sys.exit('idle: no version %s; there are %s' % (', '.join(wrong), ', '.join(VERSIONS)))
    lanes, faults = min(lanes, len(names)), 0
    # A check takes one core, and each lane has a copy of its own, without what was built: a check there begins with what others on this
    # machine kept of the same crates.
    with tempfile.TemporaryDirectory() as place, concurrent.futures.ThreadPoolExecutor(lanes) as pool:
        folders = queue.Queue()
        for lane in range(lanes):
            folder = os.path.join(place, str(lane))
            shutil.copytree(ROOT, folder, symlinks=True, ignore=shutil.ignore_patterns('.git', 'out'))
            folders.put(folder)
        for lines, bad in pool.map(tried, names, [folders] * len(names)):
            print('\n'.join(lines), flush=True)
            faults += bad
    print('idle: %d versions, %s' % (len(names), '%d verdicts not as expected' % faults if faults else 'all as expected'))
    return 1 if faults else 0


if __name__ == '__main__':
    sys.exit(main())
