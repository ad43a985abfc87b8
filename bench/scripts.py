#!/usr/bin/env python3
"""scripts.py: the names of the benchmark's rows, one to a line. scripts.py ROW N: the row's script in the replay language (docs/REPLAY.md), its last line the call that is timed, N times.
scripts.py history N: the history of N masters, a script for the replay itself.

A cache of n has n masters, 8 shard groups of n blocks and 2 n last collated ids, all collated and received: empty is 0, half-full 8, full 16. Block k of a shard follows block k - 1
and names master k, whose tops are the blocks k of all shards. Of the last master's subgraph more can be given: its tops, how many blocks of each shard name it, and whether a
block follows the two before it.
"""
import sys

BASE = 1000  # master k and block k have the seqno BASE + k; the zerostate's is 0
SHARDS = [f'0:{(2 * i + 1) << 60:016x}' for i in range(8)]
MASTERCHAIN = '-1:8000000000000000'
SIZES = {'empty': 0, 'half-full': 8, 'full': 16}


def key(shard, k):
    return f'{shard}:{BASE + k}'


def block_id(shard, k):
    n = 1 + (SHARDS + [MASTERCHAIN]).index(shard) * 1000 + k
    spread = lambda factor: f'{n * factor ** 5 % 2 ** 256:064x}'
    return f'{key(shard, k)}:{spread(0x9e3779b97f4a7c15)}:{spread(0xc2b2ae3d27d4eb4f)}'


def previous(shard, k, parents=1):
    return 'prev=' + ','.join(block_id(shard, k - 1 - i) for i in range(min(parents, k)))


def tops(shards, k):
    return 'top=' + ','.join(f'{BASE + k}/{block_id(s, k)}/1' for s in shards)


def entry(shard, k, master, top, received, parents=1):
    status = f'status={"Synced" if received else "Collated"} received_after={int(received)}'
    return f'entry {block_id(shard, k)} ref={BASE + master} {previous(shard, k, parents)} {top} anchor=7 pay=9 kind=collated {status} handle=0 weight=0 pta=7'


def cache(n, without=None, topped=8, depth=1, boundary=None, received=True, parents=1):
    """The lines that load a cache of n; without the last entry of one group, where a shard is given."""
    bound = lambda shard: key(shard, boundary) if boundary else '-'
    masters = [k for k in range(1, n + 1) if (without, k) != (MASTERCHAIN, n)]
    mark, span = (BASE + masters[-1], f'{BASE + 1}..{BASE + masters[-1]}') if masters and received else ('-', '-')
    lines = ['load', 'zerostate 0', f'masters mark={mark} boundary={bound(MASTERCHAIN)} range={span}']
    lines += [entry(MASTERCHAIN, k, k, tops(SHARDS[:topped] if k == n else SHARDS, k), received) for k in masters]
    lines += [f'id {block_id(MASTERCHAIN, k)}' for k in range(1, 2 * n + 1) if (without, k) != (MASTERCHAIN, n)]
    for shard in SHARDS if n else []:
        lines.append(f'shard {shard} mark=- boundary={bound(shard)}')
        named = lambda k: n if n - depth < k else k
        lines += [entry(shard, k, named(k), 'top=-', received, parents) for k in range(1, n + 1) if (without, k) != (shard, n)]
    return lines + ['end']


def store(call, shard, n):
    """A cache of n but for a group's last entry, and the call that stores it."""
    k = max(n, 1)
    top = tops(SHARDS, k) if shard == MASTERCHAIN else 'top=-'
    if call == 'store_collated':
        line = f'{call} {block_id(shard, k)} ref={BASE + k} {previous(shard, k)} {top} anchor=7 pta=7 pay=9'
    else:
        line = f'{call} {block_id(shard, k)} mc={block_id(MASTERCHAIN, k)} {previous(shard, k)} {top} anchor=7 pay=9'
    return cache(n, without=shard) + [line]


def rows():
    """Each row's name and script, the timed call last."""
    last = block_id(MASTERCHAIN, 16)
    keys = lambda k: ','.join(key(s, k) for s in [MASTERCHAIN] + SHARDS)
    for call in ('store_collated', 'store_received'):
        for name, shard in (('master', MASTERCHAIN), ('shard block', SHARDS[7])):
            for size, n in SIZES.items():
                yield f'{call}, {name}, {size} cache', store(call, shard, n)
    yield 'validation, full cache', cache(16, received=False) + [f'validation {last} complete 5 6']
    yield 'peek, full cache', cache(16) + [f'peek {BASE}']
    yield 'pop of 1 block', cache(16, topped=1) + [f'pop {BASE + 16}']
    yield 'pop of 64 blocks', cache(16, depth=8) + [f'pop {BASE + 16}']
    yield 'pop of 128 blocks', cache(16, depth=16) + [f'pop {BASE + 16}']
    yield 'sync of 64 blocks', cache(16, depth=8) + [f'sync {last}']
    yield 'tail_ids, chain of 16', cache(16, topped=1, depth=16) + [f'tail_ids {key(MASTERCHAIN, 16)}']
    yield 'tail_ids, 128 blocks', cache(16, depth=16) + [f'tail_ids {key(MASTERCHAIN, 16)}']
    yield 'tail_ids, 128 blocks of two parents', cache(16, depth=16, parents=2) + [f'tail_ids {key(MASTERCHAIN, 16)}']
    yield 'boundary, 9 keys, full cache', cache(16) + [f'boundary {keys(9)}']
    yield 'collect of half a full cache', cache(16, boundary=9) + ['collect']
    yield 'remove_next of half a full cache', cache(16) + [f'remove_next {keys(8)}']
    for size, n in SIZES.items():
        yield f'sound, {size} cache', cache(n) + ['sound']


def history(masters):
    """The life of so many masters with a block in each of two shards: collated, validated, received, looked at and popped."""
    yield 'new 0'
    for k in range(1, masters + 1):
        for shard in SHARDS[:2]:
            yield f'store_collated {block_id(shard, k)} ref={BASE + k} {previous(shard, k)} top=- anchor=- pta={k} pay={k}'
        master = f'{previous(MASTERCHAIN, k)} {tops(SHARDS[:2], k)} anchor={k}'
        yield f'store_collated {block_id(MASTERCHAIN, k)} ref={BASE + k} {master} pta={k} pay={k}'
        yield f'validation {block_id(MASTERCHAIN, k)} complete {k} {k}'
        yield f'store_received {block_id(MASTERCHAIN, k)} mc={block_id(MASTERCHAIN, k)} {master} pay={k}'
        yield from (f'peek {BASE + k}', f'tail_ids {key(MASTERCHAIN, k)}', f'pop {BASE + k}')


def main():
    scripts = dict(rows())
    if len(sys.argv) == 1:
        print('\n'.join(scripts))
    elif len(sys.argv) == 3 and sys.argv[1] == 'history' and sys.argv[2].isdigit():
        print('\n'.join(history(int(sys.argv[2]))))
    elif len(sys.argv) == 3 and sys.argv[1] in scripts:
        lines = scripts[sys.argv[1]]
        print('\n'.join(lines[:-1] + [f'time {sys.argv[2]}', lines[-1]]))
    else:
        sys.exit(__doc__)


if __name__ == '__main__':
    main()
