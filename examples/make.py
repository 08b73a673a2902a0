#!/usr/bin/env python3
"""Writes the folders of examples/: runs of the program with what it prints, its status and the files afterwards.

What is wanted is computed here from the rules in docs/, not by the program; `tests/cases` compares. The numbered runs in
examples/drawn come from another, independent reading of the same rules, and stay as they are.
"""
import os
import shutil
import struct
import sys

HERE = os.path.dirname(os.path.abspath(__file__))
sys.path.insert(0, os.path.join(HERE, '..', 'bench'))
from chain_files import (APPLIED, BALANCE_TOO_LOW, CREDIT, OWN, READ, account, balance, block_bytes, block_on,  # noqa: E402
                         cell, digest, digest_with, op_bytes, state_bytes, state_with)

A, B, C, T = (account(n) for n in (10, 11, 12, 13))
CONTRACT = b'\x01' + B[1:]
OPENING = [(A, 100), (C, 50)]
STATE = state_bytes(0, 0, OPENING)
USAGE = ('usage: compile SRC OUT | check CODE | genesis TEXT STATE | mine STATE OPS BLOCK NEXT WORKERS | '
         'validate STATE BLOCK NEXT WORKERS | show STATE | load NUMBER COUNT WORKERS\n')
WORDS = 'validate state block next 1'
LATEST_LEVEL = 2 ** 32 - 1
GROUPS = ('accepted', 'refused', 'malformed', 'not_yet', 'many', 'states', 'scripts_checked', 'genesis', 'show', 'words', 'files')

written = set()


def case(group, name, text, status, words=WORDS, files=None, after=None):
    """A folder: the files that stand there, the words, what is printed, the status, and the files that are written."""
    folder = os.path.join(HERE, group, name)
    assert folder not in written, folder
    written.add(folder)
    os.makedirs(folder)
    held = {'words': words.encode(), 'want': f'{text}status {status}\n'.encode()}
    held |= files or {}
    held |= {'want.' + file: data for file, data in (after or {}).items()}
    for file, data in held.items():
        with open(os.path.join(folder, file), 'wb') as out:
            out.write(data)


def accepted(name, block, level, now, balances, state=STATE, words=WORDS):
    case('accepted', name, f'accepted, level {level}, state {digest(balances).hex()}\n', 0, words,
         {'state': state, 'block': block}, {'next': state_bytes(level, now, balances)})


def accepted_transfer(name, source, dest, amount, balances=OPENING, **op):
    block, after = block_on(balances, [(source, dest, amount)])
    if op:
        block = edited(block, 52, op_bytes(source, dest, amount, **op))
    accepted(name, block, 1, 60, after, state_bytes(0, 0, balances))


def refused(group, name, block, verdict, state=STATE):
    case(group, name, f'refused: {verdict}\n', 1, WORDS, {'state': state, 'block': block})


def bad_state(name, state, why):
    case('states', name, f'state: {why}\n', 6, WORDS, {'state': state, 'block': EMPTY})


def edited(data, at, new):
    return data[:at] + new + data[at + len(new):]


def block_of(op, footprint, receipt, joins=(), after=OPENING, level=1, now=60, parent=None):
    return block_bytes(parent or digest(OPENING), level, now, [op], [list(joins)], [footprint], [receipt], digest(after))


EMPTY = block_bytes(digest(OPENING), 1, 60, [], [], [], [], digest(OPENING))
SENT, SENT_AFTER = block_on(OPENING, [(A, B, 10)])
assert len(EMPTY) == 84 and len(SENT) == 214 and len(STATE) == 88


# The transfer with an entry in place of the credited balance: its place and its key.
def entry_of_the_receiver(behind):
    return SENT[:153] + b'\x02' + SENT[154:176] + behind + SENT[176:]


def accepted_blocks():
    accepted('empty_block', EMPTY, 1, 60, OPENING)
    accepted('empty_block_with_64_workers', EMPTY, 1, 60, OPENING, words='validate state block next 64')
    accepted_transfer('transfer', A, B, 10)
    accepted_transfer('transfer_to_an_account_that_has_a_balance', A, C, 10)
    accepted_transfer('transfer_to_a_lower_address', C, A, 10)
    accepted_transfer('transfer_of_all', A, B, 100)
    accepted_transfer('transfer_of_one_more_than_all_fails', A, B, 101)
    accepted_transfer('transfer_from_an_account_without_balance_fails', B, A, 1)
    accepted_transfer('transfer_to_itself', A, A, 10)
    accepted_transfer('transfer_of_nothing', A, B, 0)
    accepted_transfer('transfer_of_the_greatest_amount_fails', A, B, 2 ** 63 - 1)
    accepted_transfer('greatest_gas', A, B, 10, gas=100_000_000)
    accepted_transfer('greatest_turns', A, B, 10, turns=1_000_000)
    accepted_transfer('greatest_supply', A, B, 7, balances=[(A, 2 ** 62), (C, 2 ** 62 - 1)])
    accepted('same_time_as_before', block_bytes(digest(OPENING), 8, 60, [], [], [], [], digest(OPENING)), 8, 60, OPENING,
             state_bytes(7, 60, OPENING))
    accepted('last_level', block_bytes(digest(OPENING), LATEST_LEVEL, 2 ** 64 - 1, [], [], [], [], digest(OPENING)),
             LATEST_LEVEL, 2 ** 64 - 1, OPENING, state_bytes(LATEST_LEVEL - 1, 2 ** 64 - 1, OPENING))
    accepted('no_balances', block_bytes(digest([]), 1, 0, [], [], [], [], digest([])), 1, 0, [], state_bytes(0, 0, []))


def refused_blocks():
    sent = op_bytes(A, B, 10)
    own_credit = [(A, OWN), (B, CREDIT)]

    def refuses(name, verdict, *args, **more):
        refused('refused', name, block_of(*args, **more), verdict)
    footprint, receipt, state, parent = 'FootprintDiffers 0', 'ReceiptDiffers 0', 'StateDiffers', 'WrongParent'
    refuses('receiver_in_mode_own', footprint, sent, [(A, OWN), (B, OWN)], (APPLIED,), after=SENT_AFTER)
    refuses('sender_in_mode_credit', footprint, sent, [(A, CREDIT), (B, CREDIT)], (APPLIED,), after=SENT_AFTER)
    refuses('receiver_in_mode_read', footprint, sent, [(A, OWN), (B, READ)], (APPLIED,), after=SENT_AFTER)
    refuses('receiver_is_missing', footprint, sent, [(A, OWN)], (APPLIED,), after=SENT_AFTER)
    refuses('another_receiver', footprint, sent, [(A, OWN), (T, CREDIT)], (APPLIED,), after=SENT_AFTER)
    refuses('three_cells', footprint, sent, own_credit + [(T, CREDIT)], (APPLIED,), after=SENT_AFTER)
    refuses('balance_of_a_contract', footprint, sent, [(A, OWN), (CONTRACT, CREDIT)], (APPLIED,), after=SENT_AFTER)
    refuses('empty_footprint', footprint, sent, [], (APPLIED,), after=SENT_AFTER)
    refused('refused', 'storage_of_the_receiver', edited(SENT, 153, b'\x01'), footprint)
    refused('refused', 'entry_of_the_receiver', entry_of_the_receiver(b'\x0f\x00'), footprint)
    refuses('empty_footprint_and_failed_receipt', footprint, sent, [], (BALANCE_TOO_LOW,), after=SENT_AFTER)
    refuses('nothing_sent_and_a_footprint', footprint, op_bytes(A, B, 0), own_credit, (APPLIED,))
    refuses('failed_and_the_receiver_touched', footprint, op_bytes(A, B, 101), own_credit, (BALANCE_TOO_LOW,))
    refuses('failed_receipt', receipt, sent, own_credit, (BALANCE_TOO_LOW,), after=SENT_AFTER)
    refuses('failed_receipt_and_the_state_before', receipt, sent, own_credit, (BALANCE_TOO_LOW,))
    refuses('applied_receipt', receipt, op_bytes(A, B, 101), [(A, OWN)], (APPLIED,))
    refuses('gas_in_the_receipt', receipt, sent, own_credit, (APPLIED, 1), after=SENT_AFTER)
    refuses('state_before_the_transfer', state, sent, own_credit, (APPLIED,))
    refuses('state_without_the_credit', state, sent, own_credit, (APPLIED,), after=[(A, 90), (C, 50)])
    refuses('parent_is_the_next_state', parent, sent, own_credit, (APPLIED,), after=SENT_AFTER, parent=digest(SENT_AFTER))
    refuses('level_too_high', parent, sent, own_credit, (APPLIED,), after=SENT_AFTER, level=2)
    refuses('level_as_before', parent, sent, own_credit, (APPLIED,), after=SENT_AFTER, level=0)
    refuses('level_as_before_and_a_bad_join', parent, sent, own_credit, (APPLIED,), after=SENT_AFTER, level=0, joins=[0])
    refuses('joined_to_itself', 'BadJoin 0', sent, own_credit, (APPLIED,), joins=[0], after=SENT_AFTER)
    refused('refused', 'time_before', SENT, parent, state_bytes(0, 61, OPENING))
    refused('refused', 'no_level_after_the_last', EMPTY, parent, state_bytes(LATEST_LEVEL, 0, OPENING))
    refused('refused', 'other_balances', EMPTY, parent, state_bytes(0, 0, [(A, 100), (C, 51)]))


def malformed_blocks():
    sent = op_bytes(A, B, 10)
    own_credit = [(A, OWN), (B, CREDIT)]

    def malformed(name, place, block):
        refused('malformed', name, block, f'Malformed at {place}')

    def malformed_of(name, place, *args, **more):
        malformed(name, place, block_of(*args, after=SENT_AFTER, **more))
    malformed('empty_file', 0, b'')
    malformed('other_magic', 0, edited(SENT, 3, b'2'))
    malformed('cut_by_one_byte', 182, SENT[:-1])
    malformed('cut_in_the_amount', 105, SENT[:110])
    malformed('one_byte_more', 214, SENT + b'\x00')
    malformed('empty_block_and_one_byte', 84, EMPTY + b'\x00')
    malformed('a_balance_behind_a_storage', 153, edited(SENT, 129, b'\x01'))
    malformed('place_16_of_an_entry', 176, entry_of_the_receiver(b'\x10\x00'))
    malformed('key_that_is_a_list', 177, entry_of_the_receiver(b'\x00\x0f'))
    malformed('key_with_a_list_in_it', 178, entry_of_the_receiver(b'\x00\x0b\x0f'))
    malformed('two_operations_are_counted', 165, edited(SENT, 48, b'\x00\x00\x00\x02'))
    malformed('513_operations_are_counted', 48, edited(SENT, 48, b'\x00\x00\x02\x01'))
    malformed('source_is_a_contract', 52, edited(SENT, 52, b'\x01'))
    malformed('source_of_no_kind', 52, edited(SENT, 52, b'\x02'))
    malformed('destination_of_no_kind', 74, edited(SENT, 74, b'\x02'))
    malformed('no_entry', 96, edited(SENT, 96, b'\x00'))
    malformed('entry_of_32_bytes', 96, edited(SENT, 96, b'\x20'))
    malformed('entry_with_a_blank', 97, edited(SENT, 100, b' '))
    malformed('param_is_a_big_map', 104, edited(SENT, 104, b'\x12'))
    malformed('param_of_no_kind', 104, edited(SENT, 104, b'\x13'))
    malformed_of('amount_of_2_to_63', 105, op_bytes(A, B, 2 ** 63), own_credit, (APPLIED,))
    malformed_of('gas_one_too_high', 113, op_bytes(A, B, 10, gas=100_000_001), own_credit, (APPLIED,))
    malformed_of('turns_one_too_high', 117, op_bytes(A, B, 10, turns=1_000_001), own_credit, (APPLIED,))
    malformed('513_joins_are_counted', 121, edited(SENT, 121, b'\x00\x00\x02\x01'))
    malformed('257_cells_are_counted', 125, edited(SENT, 125, b'\x00\x00\x01\x01'))
    malformed_of('cells_exchanged', 153, sent, own_credit[::-1], (APPLIED,))
    malformed_of('one_cell_twice', 153, sent, [(A, OWN), (A, CREDIT)], (APPLIED,))
    malformed_of('mode_three', 176, sent, [(A, OWN), (B, 3)], (APPLIED,))
    malformed('cell_of_no_kind', 129, edited(SENT, 129, b'\x03'))
    malformed_of('receipt_tag_15', 177, sent, own_credit, (15,))
    eleven = [op_bytes(A, B, 0, gas=100_000_000)] * 10 + [op_bytes(A, B, 0, gas=1)]
    malformed('gas_one_too_high_together', 52 + 10 * 69 + 61,
              block_bytes(digest(OPENING), 1, 60, eleven, [[]] * 11, [[]] * 11, [(APPLIED,)] * 11, digest(OPENING)))


def blocks_not_built_yet():
    sent = op_bytes(A, B, 10)
    own_credit = [(A, OWN), (B, CREDIT)]

    def not_yet(name, place, block):
        refused('not_yet', name, block, f'NotYet at {place}')
    not_yet('destination_is_a_contract', 74, edited(SENT, 74, b'\x01'))
    not_yet('another_entry', 97, edited(SENT, 97, b'defaulx'))
    not_yet('an_entry_of_six_letters', 96, edited(SENT, 96, b'\x06'))
    not_yet('an_entry_of_31_letters', 96, edited(SENT, 96, b'\x1f'))
    not_yet('param_is_false', 104, edited(SENT, 104, b'\x01'))
    not_yet('param_is_a_map', 104, edited(SENT, 104, b'\x11'))
    not_yet('no_such_contract', 177, block_of(sent, own_credit, (2,), after=SENT_AFTER))
    not_yet('too_many_calls', 177, block_of(sent, own_credit, (14,), after=SENT_AFTER))


def blocks_of_many():
    def many(name, transfers, verdict=None, joins=None, words=WORDS, **more):
        block, after = block_on(OPENING, transfers, joins=joins, **more)
        if verdict is None:
            case('many', name, f'accepted, level 1, state {digest(after).hex()}\n', 0, words,
                 {'state': STATE, 'block': block}, {'next': state_bytes(1, 60, after)})
        else:
            case('many', name, f'refused: {verdict}\n', 1, words, {'state': STATE, 'block': block})
    balance_of = 'balance 0x{}'.format

    def unordered(name, kind, rest, told):
        block, _ = block_on(OPENING, too_little, joins=[[], []], footprints=[second, second])
        own = bytes([OWN])
        refused('many', name, block.replace(b'\x00' + A + own, kind + A + rest + own), f'Unordered 0 1 {told}')
    too_little = [(A, B, 60), (A, C, 60)]
    first, second = [(A, OWN), (B, CREDIT)], [(A, OWN)]
    many('the_first_leaves_too_little', too_little)
    unordered('one_storage_without_a_join', b'\x01', b'', f'storage 0x{A.hex()}')
    unordered('one_entry_without_a_join', b'\x02', b'\x03\x0b\x02', f'entry 0x{A.hex()} 3 0x0b02')
    many('the_first_leaves_too_little_without_its_join', too_little, f'Unordered 0 1 {balance_of(A.hex())}', [[], []])
    many('the_first_leaves_too_little_with_an_empty_footprint', too_little, 'FootprintDiffers 1', [[], [0]], footprints=[first, []])
    many('the_first_leaves_too_little_but_both_are_applied', too_little, 'ReceiptDiffers 1', receipts=[(APPLIED,), (APPLIED,)])
    many('both_differ_and_the_first_is_told', too_little, 'ReceiptDiffers 0', footprints=[first, []],
         receipts=[(BALANCE_TOO_LOW,), (APPLIED,)])
    many('two_credits_of_one_account', [(A, T, 10), (C, T, 5)])
    many('two_credits_of_one_account_with_64_workers', [(A, T, 10), (C, T, 5)], words='validate state block next 64')
    many('the_first_leaves_too_little_without_its_join_with_64_workers', too_little, f'Unordered 0 1 {balance_of(A.hex())}', [[], []],
         'validate state block next 64')
    many('two_credits_of_one_account_joined', [(A, T, 10), (C, T, 5)], joins=[[], [0]])
    many('out_of_a_credited_account', [(A, T, 10), (T, C, 1)])
    many('out_of_an_account_before_it_is_credited', [(T, C, 1), (A, T, 10)])
    many('credit_beside_owner_without_join', [(A, T, 10), (T, C, 1)], f'Unordered 0 1 {balance_of(T.hex())}', [[], []])
    chain = [(A, B, 1), (A, C, 1), (A, T, 1)]
    many('ordered_through_another', chain, joins=[[], [0], [1]])
    many('ordered_by_all_joins', chain, joins=[[], [0], [0, 1]])
    many('last_not_ordered_after_the_second', chain, f'Unordered 1 2 {balance_of(A.hex())}', [[], [0], [0]])
    many('last_not_ordered_at_all', chain, f'Unordered 0 2 {balance_of(A.hex())}', [[], [0], []])
    many('the_earlier_of_two_is_told', chain, f'Unordered 0 1 {balance_of(A.hex())}', [[], [], []])
    swap = [(A, C, 1), (C, A, 1)]
    many('the_least_cell_is_told', swap, f'Unordered 0 1 {balance_of(A.hex())}', [[], []])
    many('joined_to_itself', chain, 'BadJoin 1', [[], [1], [1]])
    many('joined_to_a_later_one', chain, 'BadJoin 0', [[2], [0], [1]])
    many('joined_twice', chain, 'BadJoin 2', [[], [0], [1, 1]])
    many('joins_that_fall', chain, 'BadJoin 2', [[], [0], [1, 0]])
    many('joined_to_none_that_is_there', chain, 'BadJoin 2', [[], [0], [1, 4294967295]])
    many('bad_join_before_a_conflict_without_order', chain, 'BadJoin 2', [[], [], [2]])
    many('conflict_without_order_before_a_footprint', too_little, f'Unordered 0 1 {balance_of(A.hex())}', [[], []],
         footprints=[[(A, OWN)], second])
    many('state_before_the_last', too_little, 'StateDiffers', after=OPENING)
    many('512_transfers_out_of_one_account', [(A, account(1000 + k), 0 if k % 2 else 1) for k in range(512)])
    many('512_transfers_that_share_nothing', [(account(5000 + k), B, 1) for k in range(512)])


def bad_states():
    def malformed(name, place, state):
        bad_state(name, state, f'Malformed at {place}')

    def not_yet(name, place, state):
        bad_state(name, state, f'NotYet at {place}')
    malformed('empty_file', 0, b'')
    malformed('other_magic', 0, edited(STATE, 3, b'2'))
    malformed('cut_by_one_byte', 80, STATE[:-1])
    malformed('one_byte_more', 88, STATE + b'\x00')
    malformed('1025_contracts', 16, edited(STATE, 16, b'\x00\x00\x04\x01'))
    malformed('a_cell_more_than_there_are', 88, edited(STATE, 20, b'\x00\x00\x00\x03'))
    malformed('a_cell_fewer_than_there_are', 56, edited(STATE, 20, b'\x00\x00\x00\x01'))
    malformed('cell_of_no_kind', 24, edited(STATE, 24, b'\x03'))
    malformed('address_of_no_kind', 25, edited(STATE, 25, b'\x02'))
    malformed('balance_of_a_contract', 47, state_bytes(0, 0, [(CONTRACT, 1)]))
    malformed('cells_exchanged', 56, state_bytes(0, 0, OPENING[::-1]))
    malformed('one_cell_twice', 56, state_bytes(0, 0, [(A, 1), (A, 1)]))
    malformed('balance_of_nothing', 47, state_bytes(0, 0, [(A, 0)]))
    malformed('balance_of_2_to_63', 48, state_bytes(0, 0, [(A, 2 ** 63)]))
    malformed('supply_of_2_to_63', 79, state_bytes(0, 0, [(A, 2 ** 62), (C, 2 ** 62)]))
    malformed('value_of_no_kind', 47, edited(STATE, 47, b'\x13'))
    malformed('value_is_unit', 47, state_bytes(0, 0, [])[:20] + b'\x00\x00\x00\x01' + STATE[24:47] + b'\x00')
    malformed('value_is_a_cut_text', 52, STATE[:20] + b'\x00\x00\x00\x01' + STATE[24:47] + b'\x07\x00\x00\x00\x05ab')
    not_yet('one_contract', 16, edited(STATE, 16, b'\x00\x00\x00\x01'))
    not_yet('1024_contracts', 16, edited(STATE, 16, b'\x00\x00\x04\x00'))
    not_yet('storage_cell', 24, edited(STATE, 24, b'\x01'))
    not_yet('entry_cell', 56, edited(STATE, 56, b'\x02'))
    assert STATE[47] == 5 and cell(A, 100) == STATE[24:56]


def script(code, parameter='unit', storage='unit'):
    return f'parameter {parameter} ; storage {storage} ; code {code}'


def typed_scripts():
    """Scripts that may run, each with its weight and its instructions."""
    def runs(name, text, weight, instructions):
        case('scripts_checked', name, f'ok: weight {weight}, instructions {instructions}\n', 0, 'check code',
             {'code': text.encode()})
    counter = script('{ UNPAIR ; ADD ; NIL operation ; PAIR }', 'int', 'int')
    runs('counter', counter, 1 + 3 + 1 + 1, 4)
    runs('counter_in_braces', '{ ' + counter + ' }', 1 + 3 + 1 + 1, 4)
    runs('code_that_always_fails', script('{ CAR ; FAILWITH }', 'nat', 'nat'), 1 + 2, 2)
    runs('branch_that_fails', script('{ PUSH bool True ; IF {} { FAILWITH } ; CDR ; NIL operation ; PAIR }'),
         2 + 2 + 2 + 1 + 1 + 1, 6)
    runs('stack_of_128_items', script('{ CDR ;' + ' DUP ;' * 127 + ' DROP 127 ; NIL operation ; PAIR }'), 131, 131)


def faulty_scripts():
    """Scripts with a fault each, and what is told of it."""
    def faulty(name, text, why):
        case('scripts_checked', name, f'code: {why}\n', 6, 'check code', {'code': text.encode()})

    def untyped(name, why, *args):
        faulty(name, script(*args), why)

    def at(name, fault, code, word, *args):
        """Told at the first byte of the word."""
        text = script(code, *args)
        faulty(name, text, f'{fault} at {text.index(word)}')
    untyped('too_few_items', 'StackTooShort at 0', '{ ADD ; NIL operation ; PAIR }', 'int', 'int')
    untyped('too_few_items_in_a_branch', 'StackTooShort at 1.0.0', '{ PUSH bool True ; IF { ADD } { CAR ; CAR } }')
    untyped('operand_of_another_type', 'WrongType at 1', '{ UNPAIR ; ADD }')
    untyped('branches_with_two_stacks', 'BranchesDiffer at 2', '{ CDR ; PUSH bool True ; IF { UNIT } {} ; NIL operation ; PAIR }')
    untyped('loop_with_another_stack', 'BranchesDiffer at 1', '{ PUSH bool True ; LOOP { PUSH nat 1 } ; FAILWITH }')
    untyped('set_of_lists', 'NotComparable at 0', '{ EMPTY_SET (list int) ; FAILWITH }')
    untyped('parameter_with_a_map_of_lists', 'NotComparable at code', '{ FAILWITH }', '(map (list int) nat)')
    untyped('parameter_with_a_big_map', 'BigMapPlace at code', '{ FAILWITH }', '(big_map nat nat)')
    untyped('big_map_in_an_option_of_the_storage', 'BigMapPlace at code', '{ FAILWITH }', 'unit', '(option (big_map nat nat))')
    untyped('two_entries_of_one_name', 'EntryTwice at code', '{ FAILWITH }', '(or (unit %a) (unit %a))')
    untyped('instruction_behind_a_failing_one', 'FailNotLast at 1', '{ FAILWITH ; UNIT }')
    untyped('failing_body_of_dip', 'FailNotLast at 1', '{ UNIT ; DIP { FAILWITH } }')
    untyped('stack_of_129_items', 'StackTooTall at 127', '{' + ' DUP ;' * 128 + ' FAILWITH }')
    untyped('type_129_deep', 'TypeTooLarge at code', '{ FAILWITH }', '(list ' * 128 + 'unit' + ')' * 128)
    untyped('another_last_stack', 'LastStack at code', '{ DROP ; PUSH nat 0 }')
    at('bracket_that_closes_nothing', 'BadToken', '{ DROP ) }', ')')
    at('comment_without_an_end', 'Unclosed', '{ DROP } /* and', '/*')
    at('number_past_the_range', 'WiderNumber', f'{{ PUSH nat {2 ** 127} }}', str(2 ** 127))
    faulty('brackets_257_deep', '{' * 257, 'TooDeep at 256')
    text = 'parameter unit ; storage unit'
    faulty('section_left_out', text, f'Sections at {len(text)}')
    at('word_that_is_left_out', 'LeftOut', '{ LAMBDA unit unit {} }', 'LAMBDA')
    at('word_that_is_unknown', 'UnknownPrim', '{ FROB }', 'FROB')
    at('one_argument_too_many', 'Arity', '{ UNIT 1 }', 'UNIT')
    at('data_of_another_type', 'Shape', '{ PUSH nat "one" }', '"one"')
    at('nat_below_zero', 'Range', '{ PUSH nat -1 }', '-1')
    at('set_out_of_order', 'Order', '{ PUSH (set nat) { 2 ; 1 } }', '1 }')


# A state with a counter, which has money too, and a tally: its text as `show` prints it, its contracts and its cells.
COUNTER_AT, TALLY_AT = (b'\x01' + account(n)[1:] for n in (33, 34))
COUNTER = 'parameter int ;\nstorage int ;\ncode { UNPAIR ; ADD ; NIL operation ; PAIR }\n'
TALLY = ('parameter nat ;\nstorage (big_map address nat) ;\ncode { UNPAIR ; SWAP ; DUP ; SENDER ; GET ; '
         'IF_NONE { PUSH nat 0 } {} ; DIG 2 ; ADD ; SOME ; SENDER ; UPDATE ; NIL operation ; PAIR }\n')
SHOWN = f'''level 7
now 60
balance 0x{A.hex()} 100
balance 0x{C.hex()} 50
contract 0x{COUNTER_AT.hex()}
{COUNTER}end
balance 0x{COUNTER_AT.hex()} 5
storage 0x{COUNTER_AT.hex()} -3
contract 0x{TALLY_AT.hex()}
{TALLY}end
storage 0x{TALLY_AT.hex()} {{ Elt 0x{A.hex()} 2 ; Elt 0x{C.hex()} 9 }}
'''
CONTRACTS = [(COUNTER_AT, COUNTER.encode()), (TALLY_AT, TALLY.encode())]


def storage(address, value):
    return b'\x01' + address, value


def entry_of_an_address(contract, key, value):
    return b'\x02' + contract + b'\x00\x09' + key, value


def number(tag, n):
    return bytes([tag]) + n.to_bytes(16, 'big', signed=True)


CELLS = [*(balance(*held) for held in [*OPENING, (COUNTER_AT, 5)]), storage(COUNTER_AT, number(3, -3)), storage(TALLY_AT, b'\x12\x00'),
         *(entry_of_an_address(TALLY_AT, key, number(4, n)) for key, n in ((A, 2), (C, 9)))]
SHOWN_STATE = state_with(7, 60, CONTRACTS, CELLS)


def read_text(name):
    """The contract that stands in examples/scripts."""
    with open(os.path.join(HERE, 'scripts', name)) as held:
        return held.read()


# The same state as somebody writes it: comments, contracts as they stand in examples/scripts, lines in another order.
WRITTEN = f'''# Two accounts, a counter and a tally of its callers.
level 7
now 60

contract 0x{COUNTER_AT.hex()}
{read_text('counter.tz')}end
storage 0x{COUNTER_AT.hex()}  -3

contract 0x{TALLY_AT.hex().upper()}
{read_text('tally.tz')}end
# what each has called with
storage 0x{TALLY_AT.hex()} {{ Elt 0x{A.hex()} 2 ; Elt 0x{C.hex()} 9 }}

balance 0x{A.hex()} 100
balance 0x{B.hex()} 0
balance 0x{C.hex()} 50
balance 0x{COUNTER_AT.hex()} 5
'''


def genesis_texts():
    """Texts, and the states that are written of them."""
    def founds(name, text, contracts, cells, level=7, now=60):
        case('genesis', name, f'state {digest_with(contracts, cells).hex()}\n', 0, 'genesis text state', {'text': text.encode()},
             {'state': state_with(level, now, contracts, cells)})
    founds('counter_and_tally', WRITTEN, CONTRACTS, CELLS)
    founds('counter_and_tally_as_shown', SHOWN, CONTRACTS, CELLS)
    founds('no_accounts', 'level 7\nnow 60\n', [], [])
    founds('last_line_without_an_end', f'level 7\nnow 60\nbalance 0x{A.hex()} 100', [], [balance(A, 100)])
    founds('greatest_numbers', f'level 1000000000\nnow {2 ** 63 - 1}\nbalance 0x{A.hex()} {2 ** 63 - 1}\n', [],
           [balance(A, 2 ** 63 - 1)], 10 ** 9, 2 ** 63 - 1)


def faulty_texts():
    """Texts with a fault each, and what is told of it."""
    a, contract, implicit = f'0x{A.hex()}', f'0x{COUNTER_AT.hex()}', f'0x{B.hex()}'
    counter = f'contract {contract}\n{COUNTER}end\n'

    def faulty(name, kind, place, *lines, head='level 7\nnow 60\n'):
        text = head + ''.join(line + '\n' for line in lines)
        case('genesis', name, f'text: {kind} at line {place}\n', 6, 'genesis text state', {'text': text.encode('latin-1')})
    faulty('empty_text', 'Missing', 1, head='')
    faulty('level_behind_now', 'Missing', 1, 'now 60', 'level 7', head='')
    faulty('now_is_missing', 'Missing', 2, head='level 7\n')
    faulty('word_that_begins_no_line', 'BadWord', 3, f'account {a} 1')
    faulty('one_word_too_many', 'BadWord', 3, f'balance {a} 1 2')
    faulty('one_word_too_few', 'BadWord', 3, f'balance {a}')
    faulty('letter_that_is_not_ascii', 'BadWord', 4, f'balance {a} x', '# caf\xe9')
    faulty('number_with_a_leading_zero', 'BadNumber', 3, f'balance {a} 01')
    faulty('balance_of_2_to_63', 'BadNumber', 3, f'balance {a} {2 ** 63}')
    faulty('level_past_the_greatest', 'BadNumber', 1, head='level 1000000001\nnow 60\n')
    faulty('address_of_43_digits', 'BadAddress', 3, f'balance {a[:-1]} 1')
    faulty('contract_at_an_account', 'BadAddress', 3, counter.replace(contract, implicit).rstrip('\n'))
    faulty('storage_of_another_type', 'BadData', 8, counter + f'storage {contract} "five"')
    faulty('contract_that_may_not_run', 'BadScript', 3, counter.replace('ADD', 'CAR') + f'storage {contract} 5')
    faulty('script_without_an_end', 'NotClosed', 3, counter.replace('end\n', '') + f'storage {contract} 5')
    faulty('balance_twice', 'Twice', 4, f'balance {a} 1', f'balance {a} 1')
    faulty('contract_twice', 'Twice', 8, counter + counter.rstrip('\n'))
    faulty('storage_before_its_contract', 'Unknown', 3, f'storage {contract} 5', counter.rstrip('\n'))
    faulty('balance_of_no_contract', 'Unknown', 3, f'balance {contract} 1')
    faulty('supply_of_2_to_63', 'TooMuch', 4, f'balance {a} {2 ** 63 - 1}', f'balance {implicit} 1')
    faulty('contract_without_a_storage', 'NoStorage', 3, counter + f'balance {contract} 1')


def shown_states():
    """States, and what is shown of them."""
    def shows(name, text, state):
        case('show', name, text, 0, 'show state', {'state': state})
    shows('counter_and_tally', SHOWN, SHOWN_STATE)
    shows('no_accounts', 'level 0\nnow 0\n', state_bytes(0, 0, []))
    shows('two_accounts', f'level 0\nnow 0\nbalance 0x{A.hex()} 100\nbalance 0x{C.hex()} 50\n', STATE)
    shows('greatest_numbers', f'level {LATEST_LEVEL}\nnow {2 ** 64 - 1}\nbalance 0x{A.hex()} {2 ** 63 - 1}\n',
          state_bytes(LATEST_LEVEL, 2 ** 64 - 1, [(A, 2 ** 63 - 1)]))

    def malformed(name, place, state):
        case('show', name, f'state: Malformed at {place}\n', 6, 'show state', {'state': state})
    malformed('cut_by_one_byte', len(SHOWN_STATE) - 16, SHOWN_STATE[:-1])
    malformed('script_that_is_not_as_printed', 42, SHOWN_STATE.replace(b'int ;\n', b'int; \n', 1))
    malformed('empty_file', 0, b'')


def words_and_files():
    both = {'state': STATE, 'block': EMPTY}

    def usage(name, words):
        case('words', name, USAGE, 2, words, both)
    usage('no_words', '')
    usage('one_word_too_few', 'validate state block next')
    usage('one_word_too_many', 'validate state block next 1 1')
    usage('unknown_command', 'judge state block next 1')
    usage('check_without_a_word', 'check')
    usage('check_of_two_words', 'check code code')
    usage('empty_name_of_the_code', 'check ')
    usage('genesis_of_one_word', 'genesis state')
    usage('genesis_of_three_words', 'genesis state next next')
    usage('empty_name_of_the_text', 'genesis  next')
    usage('show_without_a_word', 'show')
    usage('show_of_two_words', 'show state state')
    usage('no_workers', 'validate state block next 0')
    usage('sixty_five_workers', 'validate state block next 65')
    usage('workers_with_a_leading_zero', 'validate state block next 01')
    usage('workers_are_no_number', 'validate state block next one')
    usage('block_is_next', 'validate state block block 1')
    usage('empty_name_of_the_state', 'validate  block next 1')
    usage('empty_name_of_next', 'validate state block  1')
    case('files', 'next_is_written_over_the_state', f'accepted, level 1, state {digest(OPENING).hex()}\n', 0,
         'validate state block state 1', both, {'state': state_bytes(1, 60, OPENING)})
    case('files', 'state_is_missing', 'cannot read state\n', 3, WORDS, {'block': EMPTY})
    case('files', 'block_is_missing', 'cannot read block\n', 3, WORDS, {'state': STATE})
    case('files', 'both_are_missing', 'cannot read state\n', 3)
    case('files', 'block_is_missing_and_the_state_is_bad', 'cannot read block\n', 3, WORDS, {'state': b''})
    case('files', 'state_and_block_are_bad', 'state: Malformed at 0\n', 6, WORDS, {'state': b'', 'block': b''})
    case('files', 'next_cannot_be_written', 'cannot write nowhere/next\n', 4, 'validate state block nowhere/next 1', both)
    case('files', 'code_is_missing', 'cannot read code\n', 3, 'check code')
    text = {'text': SHOWN.encode()}
    founded = f'state {digest_with(CONTRACTS, CELLS).hex()}\n'
    case('files', 'text_is_missing', 'cannot read text\n', 3, 'genesis text state')
    case('files', 'state_is_written_over_the_text', founded, 0, 'genesis text text', text, {'text': SHOWN_STATE})
    case('files', 'genesis_cannot_be_written', 'cannot write nowhere/state\n', 4, 'genesis text nowhere/state', text)
    case('files', 'faulty_text_before_the_state_is_tried', 'text: Missing at line 1\n', 6, 'genesis text nowhere/state', {'text': b''})
    case('files', 'shown_state_is_missing', 'cannot read state\n', 3, 'show state')
    case('files', 'refused_before_next_is_tried', 'refused: Malformed at 0\n', 1, 'validate state block nowhere/next 1',
         {'state': STATE, 'block': b''})


def main():
    for group in GROUPS:
        shutil.rmtree(os.path.join(HERE, group), ignore_errors=True)
    for make in (accepted_blocks, refused_blocks, malformed_blocks, blocks_not_built_yet, blocks_of_many, bad_states,
                 typed_scripts, faulty_scripts, genesis_texts, faulty_texts, shown_states, words_and_files):
        make()
    print(f'{len(written)} examples')


main()
