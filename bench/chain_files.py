"""The files of a chain as docs/FORMATS.md has them: states, blocks and digests.

The benchmarks and the examples are made with it. It shares no code with the program, so that it can tell where both read
a format differently.
"""
import hashlib
import struct

READ, CREDIT, OWN = 0, 1, 2
APPLIED, BALANCE_TOO_LOW = 0, 1


def sha256(data):
    return hashlib.sha256(data).digest()


def account(number):
    """The implicit account whose last eight bytes are the number."""
    return bytes(14) + struct.pack('>Q', number)


def balance(address, amount):
    """The cell of a balance and its value."""
    return b'\x00' + address, b'\x05' + struct.pack('>Q', amount)


def cell(address, amount):
    return b''.join(balance(address, amount))


def book_bytes(contracts):
    """The contracts of a state, a list of pairs of address and printed script, in the order of the file."""
    return struct.pack('>I', len(contracts)) + b''.join(a + struct.pack('>I', len(text)) + text for a, text in contracts)


def state_with(level, now, contracts, cells):
    """A state with contracts. `cells` is a list of pairs of a cell's bytes and its value's, in the order of the file."""
    head = b'FJS1' + struct.pack('>IQ', level, now) + book_bytes(contracts)
    return head + struct.pack('>I', len(cells)) + b''.join(name + value for name, value in cells)


def digest_with(contracts, cells):
    buckets = [hashlib.sha256() for _ in range(256)]
    for name, value in cells:
        buckets[sha256(name)[0]].update(name + value)
    return sha256(sha256(book_bytes(contracts)) + b''.join(b.digest() for b in buckets))


def state_bytes(level, now, balances):
    """A state without contracts. `balances` is a list of pairs of address and amount, in the order of the file."""
    return state_with(level, now, [], [balance(a, n) for a, n in balances])


def digest(balances):
    return digest_with([], [balance(a, n) for a, n in balances])


def op_bytes(source, dest, amount, gas=0, turns=0, entry=b'default', param=b'\x00'):
    return (source + dest + bytes([len(entry)]) + entry + param + struct.pack('>QII', amount, gas, turns))


def footprint_bytes(touches):
    return struct.pack('>I', len(touches)) + b''.join(b'\x00' + a + bytes([m]) for a, m in touches)


def receipt_bytes(tag, gas=0):
    return bytes([tag]) + struct.pack('>I', gas)


def block_bytes(parent, level, now, ops, joins, footprints, receipts, state):
    """A block. The operations, join lists, footprints and receipts are lists of equal length."""
    return (b'FJB1' + parent + struct.pack('>IQI', level, now, len(ops)) + b''.join(ops)
            + b''.join(struct.pack('>I', len(j)) + b''.join(struct.pack('>I', i) for i in j) for j in joins)
            + b''.join(map(footprint_bytes, footprints)) + b''.join(receipt_bytes(*r) for r in receipts) + state)


def run_all(balances, transfers):
    """The serial run of plain transfers (source, dest, amount): the balances after it, the receipts and the footprints."""
    have, receipts, footprints = dict(balances), [], []
    for source, dest, amount in transfers:
        if amount == 0:
            receipts.append((APPLIED,))
            footprints.append([])
        elif have.get(source, 0) < amount:
            receipts.append((BALANCE_TOO_LOW,))
            footprints.append([(source, OWN)])
        else:
            have[source] -= amount
            have[dest] = have.get(dest, 0) + amount
            receipts.append((APPLIED,))
            footprints.append(sorted([(source, OWN)] if source == dest else [(source, OWN), (dest, CREDIT)]))
    return sorted((a, n) for a, n in have.items() if n), receipts, footprints


def conflicting(one, other):
    """Whether two footprints share a cell, in modes other than Read twice and Credit twice."""
    held = dict(one)
    return any(a in held and (held[a] != m or m == OWN) for a, m in other)


def reduced_joins(footprints):
    """For each operation the conflicting earlier ones that are before no other conflicting earlier one."""
    joins, before = [], []
    for j, footprint in enumerate(footprints):
        found = [i for i in range(j) if conflicting(footprints[i], footprint)]
        joins.append([i for i in found if not any(i in before[k] for k in found if k > i)])
        before.append(set(joins[j]).union(*(before[i] for i in joins[j])))
    return joins


def block_on(balances, transfers, level=0, now=60, joins=None, after=None, footprints=None, receipts=None):
    """A block of these transfers on a state of this level, and the balances after it.

    Whatever isn't given is as the serial run has it, and the joins are as few as order all conflicts.
    """
    ran, serial_receipts, serial_footprints = run_all(balances, transfers)
    footprints = serial_footprints if footprints is None else footprints
    joins = reduced_joins(footprints) if joins is None else joins
    after = ran if after is None else after
    block = block_bytes(digest(balances), level + 1, now, [op_bytes(*t) for t in transfers], joins, footprints,
                        serial_receipts if receipts is None else receipts, digest(after))
    return block, after
