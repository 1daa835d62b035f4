#!/usr/bin/env python3
"""Compares the definitions of crates/rules with the C reference.

    python3 tests/definitions/check.py [SEED [MADE [HOSTILE [IMAGES]]]]

MADE random lists of calls from create on, HOSTILE single calls on random buffers (sinks listed in any place, clusters that
no call made; illegal records, wrong out bits, lists and sets, clusters without a head, short slices, control records out of
range), and IMAGES loads (of images as they should be, and with bytes, lengths, kinds and chunks changed, that of the sinks
above all), with a few of either whose list of sinks is full, are run through the reference, under tunings of all kinds. Each answer, with the control
record, every word of every buffer and every byte of a saved image, is written out as a theorem over the definitions, proved
by computation, in a crate of its own, and `rt check` there accepts it only if all agree. Printed are the last calls by their
answer, and how often the reference took each of its paths. It is no part of the gate, which needs no Python.

The crate, and those that it rests on, are written to a new temporary folder outside the checkout, since `rt ci` refuses .rt and
.antt files anywhere in the checkout but in the crates of crates.txt, also in folders that git ignores. The folder is removed
where all agree; else it stays, and its path is printed."""
import ctypes as C, itertools, os, random, re, shutil, subprocess, sys, tempfile

seed, made, hostile, images = ([int(x) for x in sys.argv[1:]] + [1, 100, 500, 200][len(sys.argv) - 1:])[:4]
top = os.path.abspath(os.path.join(os.path.dirname(__file__), '..', '..'))
build = tempfile.mkdtemp(prefix='definitions-')
os.makedirs(f'{build}/crates/sample/src')
os.makedirs(f'{build}/crates/sample/specs')
subprocess.run(['gcc', '-shared', '-fPIC', '-O2', '-I', f'{top}/include', '-o', f'{build}/libref.so', f'{top}/tests/reference/reference.c'], check=True)
crates = ('layout', 'endian', 'records', 'bitmap', 'graph', 'rules')
function = '#![tactic(auto)]\n\npub fn version() -> u32 {\n    1\n}\n'
for crate in crates:
    # Of these three the definitions are enough, so that their functions and theorems need not be proved first.
    bare = ('src', 'proofs') if crate in ('endian', 'graph', 'rules') else ()
    shutil.copytree(f'{top}/crates/{crate}', f'{build}/crates/{crate}', ignore=shutil.ignore_patterns('must-fail', 'out', *bare))
    if bare:
        os.makedirs(f'{build}/crates/{crate}/src')
        open(f'{build}/crates/{crate}/src/lib.rt', 'w').write(function)
open(f'{build}/crates.txt', 'w').write('layout:\nendian:\nrecords: layout\nbitmap: layout\ngraph:\nrules: layout endian records bitmap graph\nsample: layout endian records bitmap graph rules\n')
open(f'{build}/crates/sample/src/lib.rt', 'w').write(function)
open(f'{build}/crates/sample/specs/Lib.antt', 'w').write('pub mod Sample\n')

# Every definition that has to compute: a `use` line for each file of specs/, and one long `unfolding` line.
uses, names = [], []
for crate in crates:
    for file in sorted(os.listdir(f'{top}/crates/{crate}/specs')):
        module = file[:-5]
        if module in ('Lib', 'Trials', 'Demands', 'DepthFirst', 'Calls', 'FirstLoad'):
            continue
        found = re.findall(r'^\s*unfoldable pub (\S+)', open(f'{top}/crates/{crate}/specs/{file}', encoding='utf8').read(), re.M)
        if found:
            name = crate[0].upper() + module
            what = {'RSteps': '.{State, created, step, after_all}', 'RCollect': '.{plainly, by_clusters}'}.get(name)
            if what:
                uses.append(f'use Rattle.{crate}.specs.{module}{what}')
            uses.append(f'use Rattle.{crate}.specs.{module} as {name}')
            names += [f'{name}.{x}' for x in found]
unfolding = 'unfolding observed ctl nth state_of ' + ' '.join(names)
definitions = '''
unfoldable pub ctl : Control → List ℕ
ctl c =
    c.n ∷ c.r ∷ c.last ∷ c.limit ∷ c.write_loss ∷ c.out_loss
    ∷ c.tuning.least_members ∷ c.tuning.outs_per_ten ∷ c.tuning.lowest_limit ∷ []

unfoldable pub nth : List ℕ → ℕ → ℕ
nth l i = get_or l i 0

unfoldable pub state_of : List ℕ → List ℕ → List ℕ → List ℕ → List ℕ → List ℕ → State
state_of c recs slots roots list sets = record {
  control = LControlRecord.control_with (nth c 2) (nth c 3) (nth c 4) (nth c 5)
    (LControlRecord.new_control (nth c 0) (nth c 1) (LControlRecord.tuning_of (nth c 6) (nth c 7) (nth c 8)));
  records = recs; slots = slots; roots = roots; sinks = list; sets = sets;
}

unfoldable pub observed : Call → State → List (List ℕ)
observed (allocate width) s =
    let o = RAllocate.allocate s.control width s.records s.slots in
    (o.answer.refusal ∷ o.answer.object ∷ []) ∷ ctl o.answer.control ∷ o.records ∷ o.slots ∷ s.roots ∷ s.sinks ∷ s.sets ∷ []
observed (allocate_in_place width) s =
    let o = RAllocate.allocate_in_place s.control width s.records s.slots in
    (o.answer.refusal ∷ o.answer.object ∷ []) ∷ ctl o.control ∷ o.records ∷ o.slots ∷ s.roots ∷ s.sinks ∷ s.sets ∷ []
observed (read i k) s =
    let o = RRead.read s.control i k s.records s.slots in
    (o.refusal ∷ o.word ∷ []) ∷ ctl o.control ∷ s.records ∷ s.slots ∷ s.roots ∷ s.sinks ∷ s.sets ∷ []
observed (show i) s =
    let o = RShow.show s.control i s.records s.slots in
    (o.answer.refusal ∷ []) ∷ o.words ∷ ctl o.answer.control ∷ s.records ∷ s.slots ∷ s.roots ∷ s.sinks ∷ s.sets ∷ []
observed (write i k w) s =
    let o = RWrite.write s.control i k w s.records s.slots s.sinks s.sets in
    (o.answer.refusal ∷ []) ∷ ctl o.answer.control ∷ o.records ∷ o.slots ∷ s.roots ∷ s.sinks ∷ o.sets ∷ []
observed (write_in_place i k w) s =
    let o = RWrite.write_in_place s.control i k w s.records s.slots s.sinks s.sets in
    (o.refusal ∷ []) ∷ ctl o.control ∷ o.records ∷ o.slots ∷ s.roots ∷ s.sinks ∷ o.sets ∷ []
observed (set_root j w) s =
    let o = RSetRoot.set_root s.control j w s.records s.roots in
    (o.answer.refusal ∷ []) ∷ ctl o.answer.control ∷ s.records ∷ s.slots ∷ o.roots ∷ s.sinks ∷ s.sets ∷ []
observed (declare_sink i) s =
    let o = RDeclareSink.declare_sink s.control i s.records s.slots s.roots s.sinks s.sets in
    (o.answer.refusal ∷ []) ∷ ctl o.answer.control ∷ o.records ∷ s.slots ∷ s.roots ∷ o.sinks ∷ o.sets ∷ []
observed (collect kind work freed) s =
    let o = RCollect.collect kind s.control s.records s.slots s.roots s.sinks s.sets work freed in
    (o.answer.refusal ∷ o.answer.freed ∷ o.answer.kept ∷ o.answer.scanned ∷ [])
    ∷ o.work ∷ o.map ∷ ctl o.answer.control ∷ o.records ∷ o.slots ∷ s.roots ∷ o.sinks ∷ o.sets ∷ []
observed (analyse work) s =
    let o = RAnalyse.analyse s.control s.records s.slots s.roots s.sinks s.sets work in
    (o.answer.refusal ∷ o.answer.clusters ∷ o.answer.members ∷ [])
    ∷ o.work ∷ ctl o.answer.control ∷ o.records ∷ s.slots ∷ s.roots ∷ s.sinks ∷ o.sets ∷ []
observed (save out) s =
    let o = RSave.save s.control s.records s.slots s.roots s.sinks s.sets out in
    (o.answer.refusal ∷ o.answer.length ∷ []) ∷ o.image ∷ ctl o.answer.control ∷ s.records ∷ s.slots ∷ s.roots ∷ s.sinks ∷ s.sets ∷ []
observed (load t image recs slots roots list sets) s =
    let o = RLoad.load t image recs slots roots list sets in
    (o.answer.refusal ∷ []) ∷ ctl o.answer.control ∷ o.records ∷ o.slots ∷ o.roots ∷ o.sinks ∷ o.sets ∷ []
'''


def header():
    return '''use Rattle.std.specs.Prelude.{ℕ, ◌≡◌, List, [], ◌∷◌, ◌++◌, get_or, replicate, refl}
use Rattle.layout.specs.declared.answers.Control.{Control}
use Rattle.rules.specs.Calls.{Call, allocate, allocate_in_place, read, show, write, write_in_place, set_root, declare_sink, collect, analyse, save, load}
''' + '\n'.join(uses) + '\n' + definitions


R = random.Random(seed)
lib = C.CDLL(f'{build}/libref.so')
U, U8, U64 = C.c_uint32, C.c_uint8, C.c_uint64
paths = re.findall(r'PATH\(\w+, "(.*)"\)', open(f'{top}/tests/reference/reference.h').read())
taken = (U64 * len(paths)).in_dll(lib, 'ref_path_taken')
class Ctl(C.Structure):
    _fields_ = [(x, U) for x in ('n', 'r', 'last', 'limit', 'wl', 'ol', 'least', 'outs', 'lowest')]
# Records, slots, roots, sinks and sets are buffers 0 to 4. Of each call: which it is lent, what it answers, and the words of further buffers.
words_of = (U, U, U, U, U64)
calls = {
    'create': (range(5), 'k', ()), 'load': (range(5), 'k', ()), 'save': (range(5), 'k length', (U8,)),
    'allocate': ((0, 1), 'k object', ()), 'read': ((0, 1), 'k word', ()), 'show': ((0, 1), 'k start length', ()),
    'write': ((0, 1, 3, 4), 'k', ()), 'set_root': ((0, 2), 'k', ()), 'declare_sink': (range(5), 'k', ()),
    'analyse': (range(5), 'k clusters members', (U,)),
    'collect_plain': (range(5), 'k freed kept scanned', (U, U64)), 'collect_clusters': (range(5), 'k freed kept scanned', (U, U64)),
}
names_in_c = {'plainly': 'collect_plain', 'by_clusters': 'collect_clusters', 'allocate_in_place': 'allocate', 'write_in_place': 'write'}
for name, (lent, gives, further) in calls.items():
    getattr(lib, 'ref_' + name).restype = type('Answer', (C.Structure,), {'_fields_': [(x, U) for x in gives.split()] + [('c', Ctl)]})
def ctl(c):
    return [getattr(c, x) for x, _ in Ctl._fields_]
def run(name, front, given, own=()):
    """One call of the reference; gives its answer, the buffers of the heap after it, and its own."""
    lent, gives, further = calls[name]
    def bufs(lists, words): return [(ty * max(1, len(l)))(*l) for l, ty in zip(lists, words)]
    def args(bufs, lists): return [x for b, l in zip(bufs, lists) for x in (b, C.c_size_t(len(l)))]
    def after(bufs, lists): return [b[:len(l)] for b, l in zip(bufs, lists)]
    g, o = bufs(given, words_of), bufs(own, further)
    answer = getattr(lib, 'ref_' + name)(*front, *args([g[j] for j in lent], [given[j] for j in lent]), *args(o, own))
    return answer, after(g, given), after(o, own)
def create(n, r, t, buffers):
    o, after, _ = run('create', [U(x) for x in (n, r, *t)], buffers)
    return o.k, (ctl(o.c), *after)
def call(op, s, a):
    """s = (control record, records, slots, roots, sinks, sets); gives (observed, new s)"""
    if op == 'load':
        image = (U8 * max(1, len(a[1])))(*a[1])
        o, after, _ = run(op, (*[U(x) for x in a[0]], image, C.c_size_t(len(a[1]))), a[2:])
        return [[o.k], ctl(o.c), *after], s if o.k else (ctl(o.c), *after)
    name = a[0] if op == 'collect' else op
    name = names_in_c.get(name, name)
    o, after, own = run(name, (Ctl(*s[0]), *[U(x) for x in a if type(x) is int]), s[1:], [x for x in a if type(x) is list])
    head = [getattr(o, x) for x in calls[name][1].split()]
    if op == 'show': head, own = head[:1], [s[2][o.start:o.start + o.length]]
    return [head, *own, ctl(o.c), *after], (ctl(o.c), *after)
def lst(l):
    runs = [(x, len(list(run))) for x, run in itertools.groupby(l)]
    return '(' + ''.join(f'replicate {k} {x} ++ ' if k > 9 else f'{x} ∷ ' * k for x, k in runs) + '[])'
def tuned(t):
    return '(LControlRecord.tuning_of ' + ' '.join(map(str, t)) + ')'
def term(op, a):
    return '(' + op + ''.join(f' {lst(x) if type(x) is list else tuned(x) if type(x) is tuple else x}' for x in a) + ')'
def tuning(wrong=.04):
    """The three numbers of the analysis: often the usual ones or such that small clusters are left, at times one out of range."""
    if R.random() < .3: return 4, 25, 8
    t = [R.choice([1, 1, 2, 2, 3, 4, 5, 4095]), R.choice([0, 1, 5, 10, 15, 20, 25, 40, 79, 80]), R.choice([1, 1, 2, 2, 3, 4, 8, 9, 4095])]
    if R.random() < wrong: t[R.randrange(3)] = R.choice([0, 81, 4096, 0xFFFFFFFF])
    return tuple(t)
def work(n, ok=True):
    k = 10 * n + 64
    if not ok: k -= 1
    return [5] * k
def word(n):
    return R.choice([0, 0x80000000, 0x80000005, n + 1, 4096, 0x7FFFFFFF] + [R.randint(1, n) for _ in range(14)])
def either(op):
    return R.choice([op, op + '_in_place'])
def le(value, count):
    return list(value.to_bytes(count, 'little'))
def chunk(kind, body):
    return le(len(body), 4) + le(kind, 2) + body
def twos(numbers):
    return sum([le(x, 2) for x in numbers], [])
def three(n, r, last, objects, roots):
    return [chunk(1, twos([1, n, r, last])), chunk(2, objects), chunk(3, roots)]
def drawn(n, r):
    """The chunks of an image as it should be, but for that of the sinks, which is often wrong."""
    there = [x for x in range(1, n + 1) if R.random() < .7]
    types = [x for x in there if R.random() < .5]
    objects = []
    for x in there:
        words = [R.choice([0, 0x80000000, 0xFFFFFFFF] + there * 2) for _ in range(R.choice([0, 1, 1, 2, 8]))]
        objects += le(x, 2) + [len(words), int(x in types)] + sum([le(w, 4) for w in words], [])
    roots = sum([le(R.choice([0] + there), 4) for _ in range(r)], [])
    return three(n, r, R.randint(0, n), objects, roots) + listing(n, types)
def listing(n, types):
    """The chunk of sinks: as it should be in half of the images, or none, or one with a fault, or two."""
    numbers = R.sample(types, len(types))
    what = R.choice(['right'] * 6 + ['missing'] * 2 + ['number'] * 3 + ['odd'] * 2 + ['empty', 'more', 'less', 'two'])
    if what == 'missing' or what == 'right' and not types: return []
    if what == 'empty': numbers = []
    elif what == 'number' and types: numbers[R.randrange(len(types))] = R.choice([0, n + 1, R.randint(1, n), R.randint(1, n), *types])
    elif what == 'more': numbers.insert(R.randint(0, len(types)), R.choice([0, R.randint(1, n)] + types))
    elif what == 'less': numbers = numbers[1:]
    body = twos(numbers)
    if what == 'odd': body = R.choice([body + [R.randint(0, n)], body[1:], body[:-1]])
    return [chunk(0x8001, body)] * (2 if what == 'two' else 1)
def further():
    return chunk(R.choice([0x8000, 0x8002, 0xFFFF]), [R.randint(0, 255) for _ in range(R.randint(0, 3))])
def change(chunks):
    """One change to a list of chunks; not every one is a fault."""
    i, j = R.randrange(len(chunks)), R.randrange(len(chunks))
    at = R.randrange(len(chunks[i])) if chunks[i] else 0
    what = R.choice(['byte'] * 6 + ['cut', 'stray', 'more', 'less', 'length', 'swap', 'twice', 'without', 'kind', 'further'])
    if what == 'byte' and chunks[i]: chunks[i][at] = R.choice([0, 1, 2, 3, 9, 0x80, 0xFF, chunks[i][at] ^ 1 << R.randint(0, 7)])
    elif what == 'cut': del chunks[i][at:]
    elif what == 'stray': chunks.append([R.randint(0, 3) for _ in range(R.randint(1, 5))])
    elif what in ('more', 'less'):
        body = chunks[i][6:]
        if what == 'more': body.insert(R.randint(0, len(body)), R.randint(0, 3))
        elif body: del body[R.randrange(len(body))]
        chunks[i] = le(len(body), 4) + chunks[i][4:6] + body
    elif what == 'length': chunks[i][:4] = le(R.choice([0, 1, 0x7FFFFFFF, 0xFFFFFFFA, 0xFFFFFFFF]), 4)
    elif what == 'swap': chunks[i], chunks[j] = chunks[j], chunks[i]
    elif what == 'twice': chunks.insert(R.randint(0, len(chunks)), list(chunks[i]))
    elif what == 'without': del chunks[i]
    elif what == 'kind': chunks[i][4:6] = le(R.choice([0, 1, 2, 3, 4, 0x7FFF, 0x8000, 0x8001, 0xFFFF]), 2)
    else: chunks.insert(R.randint(0, len(chunks)), further())
    return chunks or [[]]
def random_load():
    n, r = R.randint(1, 6), R.randint(1, 2)
    chunks = drawn(n, r)
    if R.random() < .3: chunks.insert(R.randint(3, len(chunks)), further())
    for _ in range(R.choice([0, 0, 0, 1, 1, 2])): chunks = change(chunks)
    return [tuning(), sum(chunks, [])] + [[7] * (k - 1 if R.random() < .03 else k + R.randint(0, 1)) for k in (n, 8 * n, r, 64, n)]
def saved(s):
    before = list(taken)
    (k, length), bytes = call('save', s, [[0] * (160 + 36 * len(s[1]) + 4 * len(s[3]))])[0][:2]
    taken[:] = before
    return bytes[:length]
def random_save(s):
    return 'save', [[6] * max(0, len(saved(s)) + R.choice([-1, 0, 0, 1, 3]))]
def random_collect(n, ok=True):
    return 'collect', [R.choice(['plainly', 'by_clusters', 'by_clusters']), work(n, ok), [9] * (n // 64 + 1)]
def random_call(n, r, s):
    op = R.choice(['allocate'] * 3 + ['read', 'show'] + ['write'] * 10 + ['set_root'] * 2 + ['declare_sink'] * 4 + ['analyse'] * 4 + ['collect'] * 2
                  + ['save'] * 2 + ['load'])
    o = R.choice([0, n + 1] + list(range(1, n + 1)) * 3)
    if op == 'allocate': return either(op), [R.choice([0, 1, 2, 2, 3, 3, 8, 9])]
    if op == 'read': return op, [o, R.randint(0, 3)]
    if op == 'show': return op, [o]
    if op == 'write': return either(op), [o, R.choice([0, 0, 0, 1, 1, 2, 8]), word(n)]
    if op == 'set_root': return op, [R.randint(0, r), R.choice([word(n), R.randint(0, n)])]
    if op == 'declare_sink': return op, [o]
    if op == 'analyse': return op, [work(n, R.random() < .95)]
    if op == 'save': return random_save(s)
    if op == 'load': return op, [tuning(), saved(s), *[[7] * len(l) for l in s[1:]]] if R.random() < .5 else random_load()
    return random_collect(n, R.random() < .95)

out = [header()]
stats = {}
def emit(calls, last, st, observed):
    i, cs = len(out), ''.join(f'{term(*c)} ∷ ' for c in calls)
    seen = ''.join(f'{lst(l)} ∷ ' for l in observed)
    out.append(f't{i} : observed {term(*last)} (after_all step ({cs}[]) {st}) ≡ ({seen}[])\n{unfolding}\nt{i} = refl\n')
    k = (last[0], observed[0][0]); stats[k] = stats.get(k, 0) + 1
def emit_single(op, a, s):
    emit([], (op, a), '(state_of ' + ' '.join(lst(l) for l in s) + ')', call(op, s, a)[0])
def emit_load(a):
    emit([], ('load', a), '(state_of [] [] [] [] [] [])', call('load', None, a)[0])
def made_list():
    """Calls from create on: sinks, then clusters that lead to them, then calls at random."""
    n, r = R.randint(5, 8), R.randint(1, 3)
    b = [[1] * (k - 1 if R.random() < .006 else k + 1) for k in (n, 8 * n, r, 64, n)]
    t = tuning(.02)
    start = f'(created {n} {r} {tuned(t)} ' + ' '.join(lst(l) for l in b) + ')'
    refused, s = create(n, r, t, b)
    if refused: return emit([], ('set_root', [0, 0]), start, call('set_root', s, [0, 0])[0])
    done = []
    def do(op, a):
        nonlocal s
        _, s = call(op, s, a); done.append((op, a))
    # sinks in another order than by number, and often all but one of them freed again, so that the list has holes
    first = R.sample(range(1, 4), R.randint(1, 3))
    for _ in range(3): do('allocate', [R.randint(0, 2)])
    for x in first: do('declare_sink', [x])
    if R.random() < .6: do('set_root', [0, R.choice(first)]); do(*random_collect(n))
    for _ in range(n - R.randint(0, 1)): do('allocate', [R.choice([1, 2, 2, 3])])
    if R.random() < .3: do('declare_sink', [R.randint(1, n)])
    # the other objects in a row from the root on, with further pointers at random
    types = [x for x in s[4] if x]
    others = [x for x in range(1, n + 1) if x not in types]
    do('set_root', [0, others[0]])
    for x, y in zip(others, others[1:]): do('write', [x, 0, y])
    for _ in range(n): do('write', [R.randint(1, n), R.choice([0, 1, 1, 1, 2]), R.choice([R.randint(1, n)] + types)])
    do('analyse', [work(n)]); do('analyse', [work(n)])
    for _ in range(R.randint(0, 8)): do(*random_call(*s[0][:2], s))
    n, r = s[0][:2]
    last = random_call(n, r, s)
    other = R.random()
    if other < .5: last = random_collect(n)
    elif other < .7: last = random_save(s)
    emit(done, last, start, call(last[0], s, last[1])[0])
def field(q):
    return q >> 16 & 4095
def any_objects(n):
    """Records and slots at random, and the heads of their clusters, which may have any size."""
    written, free = R.choice([.1, .5]), R.choice([0, .15])
    heads, types = R.sample(range(1, n + 1), R.randint(1, 2)), R.sample(range(1, n + 1), R.randint(0, 3))
    clusters = [0] * R.randint(1, 6) + heads * 2
    recs, slots = [], []
    for x in range(1, n + 1):
        w = R.randint(0, 3)
        recs.append(0 if R.random() < free else 1 + 2 * (R.random() < written) + 256 * w + (4 if x in types else 65536 * R.choice(clusters)))
        words = [R.choice([0, 0x80000001, heads[0], x % n + 1] + [R.randint(1, n)] * 4 + types) for _ in range(w)]
        slots += (words if recs[-1] else []) + [0] * (8 - (w if recs[-1] else 0))
    for h in heads: recs[h - 1] = 65536 * h + (recs[h - 1] & 0xF03 or 1)
    return recs, [0 if 1 <= w <= n and recs[w - 1] == 0 else w for w in slots], heads
def world(n):
    """The same, of a cluster that leads to sinks, and they to four objects in a row, where an analysis often gets by the set alone."""
    order = R.sample(range(1, n + 1), n)
    members, types, row = order[:n - 6], order[n - 6:n - R.choice([4, 4, 5])], order[n - 4:]
    recs, slots = [1] * n, [0] * (8 * n)
    for x in order:
        if x in members: words = [types[members.index(x) % len(types)], R.choice([0, *members, *types, *row[:2]])]
        elif x in row[:-1]: words = [row[row.index(x) + 1], R.choice([0, x, *types])]
        else: words = [R.choice(row[:1] * 3 + row)]
        recs[x - 1] += 256 * len(words) + (65536 * members[0] if x in members else 4 if x in types else 0)
        slots[8 * x - 8: 8 * x - 8 + len(words)] = words
    return recs, slots, members[:1]
def random_heap(n, r, objects, damage):
    """Buffers that no call made, most of them a well-formed heap, as (control record, records, slots, roots, sinks, sets)."""
    recs, slots, heads = objects
    faults = ['head', 'word', 'out', 'root', 'place after sets'] + ['record', 'widths', 'set'] * 2 + ['place'] * 4
    faults = R.sample(faults, R.choice([1, 1, 2])) if R.random() < damage else []
    def used(x): return slots[8 * x - 8: 8 * x - 8 + min(8, recs[x - 1] >> 8 & 15)]
    def leaves(q, y): return 1 <= y <= n and not recs[y - 1] & 4 and field(recs[y - 1]) != field(q)
    for x in range(n):
        if field(recs[x]) and any(leaves(recs[x], y) for y in used(x + 1)): recs[x] |= 8
    if 'record' in faults: recs[R.randrange(n)] ^= 1 << R.randint(0, 31)
    if 'widths' in faults: recs = [q | 0x800 if field(q) and R.random() < .5 else q for q in recs]
    if 'head' in faults: recs[heads[0] - 1] = R.choice([0, recs[heads[0] - 1] & 0xFFFF])
    if 'word' in faults: slots[R.randrange(8 * n)] = R.choice([1, n + 1, 5000, 0xFFFFFFFF])
    if 'out' in faults: recs[R.randrange(n)] ^= 8
    # the sinks in any places, and the sets by the list as it is
    types = [x for x in range(1, n + 1) if recs[x - 1] & 4]
    sinks = [0] * 64
    places = R.sample(range(R.choice([len(types), 9, 64])), len(types))
    for k, x in zip(places, types): sinks[k] = x
    def wrong_place(): sinks[R.choice([R.randint(0, 8), *places[:1]])] = R.choice([0, R.choice([n + 1, 0xFFFFFFFF]), R.randint(1, n), *types[:1]])
    if 'place' in faults: wrong_place()
    sets = [sum(1 << k for k, y in enumerate(sinks) if 1 <= y <= n and any(field(recs[x - 1]) == h and y in used(x) for x in range(1, n + 1)))
            for h in range(1, n + 1)]
    if 'place after sets' in faults: wrong_place()
    if 'set' in faults: sets[R.choice(heads + [R.randint(1, n)]) - 1] ^= 1 << R.choice(places + [R.randint(0, 4), R.randint(0, 63)])
    roots = [R.choice([0, *heads, *types, R.randint(1, n)]) for _ in range(r)]
    if R.random() < .5: roots[0] = heads[0]
    roots = [y if y and recs[y - 1] else 0 for y in roots]
    if 'root' in faults: roots[R.randrange(r)] = R.choice([n + 1, 0x80000000, R.randint(1, n)])
    t = tuning(0)
    limit = R.choice([0] + [max(t[2], x) for x in (1, 2, 3, 4, 8, 9, 17, 4095)])
    c = [n, r, R.randint(0, n), limit, R.choice([0, 1, n]), R.randint(0, n), *t]
    if R.random() < .06: c[R.randrange(9)] = R.choice([0, 1, 7, 65, 81, 4096])
    # each slice with a word more than it needs, or one fewer
    return c, *[l[:-1] if R.random() < .015 else l + [77 + j] for j, l in enumerate((recs, slots, roots, sinks, sets))]
def random_write(n, s):
    """Often into a cluster, of a listed number, of the word that the slot has, or over one that another slot holds too, used or not."""
    c, recs, slots, roots, sinks, sets = s
    x = R.choice([y + 1 for y, q in enumerate(recs[:n]) if 1 <= q >> 8 & 15 <= 8 for _ in range(5 if field(q) else 1)] or [1])
    w = min(8, recs[x - 1] >> 8 & 15)
    k = R.randrange(w) if w and R.random() < .9 else w
    old = (slots[8 * x - 8: 8 * x] + [0, 0])[k]
    if R.random() < .3: slots[8 * x - 8 + R.randint(0, 3)] = old
    return either('write'), [x, k, R.choice([0, R.randint(1, n), word(n), old] + 2 * [y for y in sinks[:64] if y])]
def full_list(count):
    """65 objects without words, 63 or 64 of them sinks: declarations of a new sink and of one that is listed, and a save."""
    order = R.sample(range(1, 66), 65)
    types = order[:count]
    sinks = types + [0] * (64 - count)
    R.shuffle(sinks)
    s = [65, 1, 0, 0, 0, 0, 4, 25, 8], [5 if x in types else 1 for x in range(1, 66)], [0] * 520, order[:1], sinks, [0] * 65
    for op, a in ('declare_sink', order[-1:]), ('declare_sink', order[:1]), random_save(s): emit_single(op, a, s)
def full_image(count):
    """An image of 65 objects without words, 64 or all of them sinks, with their chunk and without."""
    types = R.sample(range(1, 66), count)
    chunks = three(65, 1, 0, sum([le(x, 2) + [0, int(x in types)] for x in range(1, 66)], []), le(1, 4))
    for image in chunks, chunks + [chunk(0x8001, twos(types))]: emit_load([(4, 25, 8), sum(image, []), *[[7] * k for k in (65, 520, 1, 64, 65)]])
for _ in range(made): made_list()
for _ in range(hostile):
    op = R.choice(['any'] * 4 + ['write'] * 5 + ['collect'] * 3 + ['analyse'] * 3 + ['declare_sink', 'save'])
    n, r = R.choice([3, 4, 5, 6, 7, 7, 8, 8, 8]), R.randint(1, 3)
    objects = world(n) if n > 6 and op != 'write' and R.random() < .7 else any_objects(n)
    s = random_heap(n, r, objects, .8 if op == 'write' else .35)
    if op == 'any': op, a = random_call(n, r, s)
    elif op == 'write': op, a = random_write(n, s)
    elif op == 'collect': op, a = random_collect(n)
    elif op == 'analyse': a = [work(n)]
    elif op == 'declare_sink': a = [R.randint(1, n)]
    else: op, a = random_save(s)
    emit_single(op, a, s)
for _ in range(images): emit_load(random_load())
if hostile: full_list(63); full_list(64)
if images: full_image(64); full_image(65)

open(f'{build}/crates/sample/specs/Sample.antt', 'w', encoding='utf8').write('\n'.join(out))
for k in sorted(stats):
    print(k[0], k[1], stats[k])
for path, k in zip(paths, taken):
    print(f'{path}: {k}')
run = subprocess.run(['rt', 'check'], cwd=f'{build}/crates/sample', capture_output=True, text=True)
good = run.returncode == 0
print(f'{len(out) - 1} passed, 0 failed' if good else run.stdout[-3000:] + run.stderr[-3000:] + f'\nThe crates stay in {build}')
if good: shutil.rmtree(build)
sys.exit(0 if good else 1)
