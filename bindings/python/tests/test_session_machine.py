"""Sessions as a state machine: drawn steps, each beside a dict of positions and a set of hashes. A signal handler may make another step
inside a step, between any two instructions of `_session.py`, and may raise there."""

import copy
import pickle
import random
import sys

import pytest
import xet_model as m
from drawn import MAX, model_hash, ours

import yurewha as y
from yurewha import _session

HASHES = [y.Hash.random_from_seed(number) for number in range(24)]
PLACES = 20


class Ended(Exception):
    """What an iterator and a signal handler raise."""


class Model:
    """What a session has to say: the chunk at each position, and the hashes that it knows."""

    def __init__(self, keeps, chunks=(), known=()):
        self.keeps, self.chunks, self.known = keeps, dict(chunks), set(known)

    def copy(self):
        return Model(self.keeps, self.chunks, self.known)

    def put(self, first, chunks):
        """Puts chunks. Returns how many hashes are new, or the error."""
        return self.put_range(first, chunks) or self.learn({hash_ for hash_, _ in chunks})

    def put_range(self, first, chunks):
        """Puts chunks, and learns no hash. Returns the error, or None."""
        places = range(first, first + len(chunks))
        if any(place in self.chunks for place in places):
            return y.SessionOverlap
        if places.stop > MAX:
            return y.SessionPositions
        if self.is_too_much(chunks):
            return y.SessionSizes
        self.chunks.update(zip(places, chunks))
        return None

    def learn(self, hashes):
        """Learns hashes, if it keeps any. Returns how many are new."""
        new = len(hashes - self.known)
        self.known |= hashes if self.keeps else set()
        return new

    def join(self, other):
        """Puts the chunks of another model, and learns its hashes. Returns how many are new, or the error."""
        if set(self.chunks) & set(other.chunks):
            return y.SessionOverlap
        if self.is_too_much(other.chunks.values()):
            return y.SessionSizes
        self.chunks.update(other.chunks)
        return self.learn(other.known)

    def keep(self, hashes):
        if hashes and not self.keeps:
            return y.InvalidArguments
        self.known |= set(hashes)
        return None

    def push(self, first, chunks):
        if first < self.after():
            return y.InvalidArguments
        if self.is_too_much(chunks):
            return y.SizeOverflow
        self.chunks.update(zip(range(first, first + len(chunks)), chunks))
        return None

    def is_too_much(self, chunks):
        return sum(size for _, size in (*self.chunks.values(), *chunks)) > MAX

    def after(self):
        """The first position of a run that may be pushed. It leaves a gap of one position."""
        return max(self.chunks, default=-2) + 2


class Step:
    """A drawn call: on a session and on the model of one. Each returns what the call answers, or the error's type."""

    def __init__(self, rng, kinds):
        self.kind = rng.choice(kinds)
        self.chunks = [(rng.choice(HASHES), rng.choice((0, 7, 1000))) for _ in range(rng.choice((1, 1, 2, 5)))]
        self.first = rng.randrange(PLACES)
        self.bad = rng.random()
        if self.kind == "put" and self.bad < 0.1:
            self.chunks[-1] = (self.chunks[-1][0], MAX)
        elif self.kind == "range" and self.bad < 0.1:
            self.chunks = [(self.chunks[0][0], MAX)]
        elif self.kind in ("put", "range") and self.bad < 0.15:
            self.first = MAX
        if self.kind == "join":
            self.make_other(keeps=self.bad < 0.7)

    def make_other(self, keeps):
        """Makes what is joined: two runs, of which the second is a range, and one more hash if it keeps any."""
        other, model, last = y.Session(keep_hashes=keeps), Model(keeps), self.chunks[-1:]
        hashes = [HASHES[self.first]] if keeps else []
        other.put(self.first, self.chunks), model.put(self.first, self.chunks)
        other.put_range(self.first + 7, 1, y.Subtree.from_chunks(False, last, False)), model.put_range(self.first + 7, last)
        other.keep_hashes(hashes), model.keep(hashes)
        self.other, self.model_of_other = other, model

    def broken(self, items):
        yield from items
        raise Ended

    def on(self, session, after):
        hashes = [hash_ for hash_, _ in self.chunks]
        calls = {
            "put": lambda: session.put(self.first, self.chunks),
            "broken put": lambda: session.put(self.first, self.broken(self.chunks)),
            "keep": lambda: session.keep_hashes(hashes),
            "broken keep": lambda: session.keep_hashes(self.broken(hashes)),
            "push": lambda: session.push_run(after, after + len(hashes), y.Subtree.from_chunks(False, self.chunks, False)),
            "range": lambda: session.put_range(self.first, len(hashes), y.Subtree.from_chunks(False, self.chunks, False)),
            "join": lambda: session.join(self.other),
            "in": lambda: [hash_ in session for hash_ in hashes],
        }
        try:
            return calls[self.kind]()
        except (Ended, y.YurewhaError) as error:
            return type(error)

    def on_model(self, model, after):
        if self.kind == "put":
            return model.put(self.first, self.chunks)
        if self.kind == "keep":
            return model.keep([hash_ for hash_, _ in self.chunks])
        if self.kind == "push":
            return model.push(after, self.chunks)
        if self.kind == "range":
            return model.put_range(self.first, self.chunks)
        if self.kind == "join":
            return model.join(self.model_of_other)
        if self.kind == "in":
            return [hash_ in model.known for hash_, _ in self.chunks]
        return Ended


def says(session, model):
    """Whether a session has the chunks and hashes of its model, by the calls that don't use its index."""
    runs = [place for run in session.runs() for place in range(run.first, run.end)]
    return (runs == sorted(model.chunks) and set(session.known_hashes()) == model.known
            and session.total_size == sum(size for _, size in model.chunks.values()))


def check(session, model):
    assert says(session, model)
    assert [hash_ in session for hash_ in HASHES] == [hash_ in model.known for hash_ in HASHES]
    total = len(model.chunks)
    if set(model.chunks) == set(range(total)):
        nodes = [(model_hash(hash_), size) for hash_, size in map(model.chunks.get, range(total))]
        assert session.finish(total) == ours(m.file_hash(nodes))
    else:
        with pytest.raises(y.SessionGap):
            session.finish(total)


def exchanged(rng, session, model, path):
    """Returns a copy of a session, or what is read of a form that it was saved in, and its model."""
    form, model = rng.randrange(6), model.copy()
    if form == 0:
        return rng.choice((session.copy, lambda: copy.copy(session), lambda: copy.deepcopy(session)))(), model
    if form == 1:
        return pickle.loads(pickle.dumps(session)), model
    if form == 2:
        session.save(path)
        return y.Session.load(path), model
    if form == 3:
        session.save(path, hashes=False)
        model.known.clear()
        return y.Session.load(path), model
    model.keeps, with_hashes = rng.random() < 0.7, form == 4
    if not (model.keeps and with_hashes):
        model.known.clear()
    return y.Session.from_json(session.to_json(hashes=with_hashes), keep_hashes=model.keeps), model


KINDS = ["put"] * 4 + ["range", "range", "join", "join", "keep", "push", "broken put", "broken keep", "in", "in"]


@pytest.mark.parametrize("seed", range(40))
def test_drawn_steps(seed, tmp_path, monkeypatch):
    rng = random.Random(seed)
    monkeypatch.setattr(_session, "MANY_NODES", rng.choice((1, 1 << 18)))  # from how many chunks on a thread does the work
    keeps = rng.random() < 0.6
    session, model = y.Session(keep_hashes=keeps), Model(keeps)
    for _ in range(40):
        if rng.random() < 0.1 or len(model.chunks) > PLACES:
            session, model = y.Session(keep_hashes=keeps), Model(keeps)
        elif rng.random() < 0.2:
            session, model = exchanged(rng, session, model, tmp_path / "saved")
        step, after = Step(rng, KINDS), model.after()
        if after < MAX:
            assert step.on(session, after) == step.on_model(model, after), step.kind
            assert step.kind != "join" or says(step.other, step.model_of_other)
        if rng.random() < 0.5:
            check(session, model)
    check(session, model)


class Handler:
    """A signal handler: it makes one step between two instructions of `_session.py`, and raises if it is told to."""

    def __init__(self, at, raises):
        self.left, self.work, self.raises = at, None, raises

    def trace(self, frame, event, argument):
        # CPython 3.11 may crash if a trace function raises in `__del__`, where an error has no effect anyway.
        if frame.f_code.co_filename != _session.__file__ or frame.f_code.co_name == "__del__":
            return None
        frame.f_trace_opcodes = True
        return self.each

    def each(self, frame, event, argument):
        if event == "opcode" and self.work is not None:
            self.left -= 1
            if self.left < 0:
                work, self.work = self.work, None
                work()
                if self.raises:
                    raise Ended
        return self.each

    def around(self, call):
        before = sys.gettrace()
        sys.settrace(self.trace)
        try:
            return call()
        finally:
            sys.settrace(before)


def orders(outer, inner, raised):
    """The orders of two steps that are right if one is made inside the other. One that a handler ended may be missing."""
    return [[inner, outer], [outer, inner]] + ([[inner]] if raised else [])


def outcome(model, order, after):
    """What a session holds after some steps, and what each of them answers."""
    then = model.copy()
    return then, {step: step.on_model(then, after) for step in order}


def agree(told, expected):
    """Whether steps answer as they have to. One that looks at several hashes may look at some before and at some after the other step."""
    return all(told[step] in (answer, Ended) or step.kind == "in" for step, answer in expected.items())


def made_inside(session, model, outer, inner, handler):
    """Makes a step with another one inside it, and checks both. Returns the session's model then, and whether the handler came."""
    told, after = {}, model.after()
    handler.work = lambda: told.update({inner: inner.on(session, after)})
    told[outer] = handler.around(lambda: outer.on(session, after))
    came = handler.work is None
    if not came:
        told[inner] = inner.on(session, after)
    raised = told[outer] is Ended
    assert raised <= handler.raises
    found = [outcome(model, order, after) for order in orders(outer, inner, raised)]
    fitting = [then for then, answers in found if says(session, then) and agree(told, answers)]
    assert fitting, (outer.kind, inner.kind, told)
    return fitting[0], came


@pytest.mark.parametrize("seed", range(40))
def test_a_handler_makes_steps_inside_steps(seed, monkeypatch):
    rng = random.Random(1000 + seed)
    for _ in range(20):
        keeps = rng.random() < 0.7
        session, model = y.Session(keep_hashes=keeps), Model(keeps)
        while model.after() < PLACES:
            outer = Step(rng, ["put", "put", "range", "join", "keep", "push", "in", "in"])
            inner = Step(rng, ["put", "put", "range", "join", "keep", "in"])
            handler = Handler(rng.randrange(rng.choice((60, 400))), rng.random() < 0.3)
            model, _ = made_inside(session, model, outer, inner, handler)
            if rng.random() < 0.5:
                check(session, model)


@pytest.mark.parametrize("raises", [False, True])
@pytest.mark.parametrize("keeps", [False, True])
@pytest.mark.parametrize("inner", ["put", "in"])
@pytest.mark.parametrize("outer", ["put", "range", "join", "keep", "push", "in"])
def test_a_handler_at_each_instruction(outer, inner, keeps, raises, monkeypatch):
    """Every second time the session is changed again before somebody asks for a hash."""
    rng = random.Random(f"{outer} {inner} {keeps} {raises}")
    for at in range(2000):
        session, model = y.Session(keep_hashes=keeps), Model(keeps)
        for step in (Step(rng, ["put"]), Step(rng, ["in"])):
            step.on(session, None), step.on_model(model, None)
        model, came = made_inside(session, model, Step(rng, [outer]), Step(rng, [inner]), Handler(at, raises))
        if not came:
            break
        if at % 2:
            model, _ = made_inside(session, model, Step(rng, ["put"]), Step(rng, ["in"]), Handler(0, False))
        if model.after() < MAX:
            check(session, model)
    assert at > 10 and not came
