"""Three tasks, for the scripts beside it that measure on them: counters, a puzzle of facts alone, and a transport of both.

How many states each task has at which cost is worked here, by arithmetic or by a search over states of Python that knows no
PDDL. All answers follow from that.
"""

import collections
import heapq
import itertools
import sys

import measure


class Task:
    """A pair of files; how many states can be reached, by least cost; and the cost of a cheapest plan, if there is one."""

    def __init__(self, title, domain, problem, costs, optimal):
        self.title, self.domain, self.problem = title, domain, problem
        self.counts = sorted(collections.Counter(costs).items())
        self.states = sum(count for _, count in self.counts)
        self.optimal = optimal

    def write(self, folder):
        """Writes domain.pddl and problem.pddl of the folder."""
        measure.write(folder, "domain.pddl", self.domain)
        measure.write(folder, "problem.pddl", self.problem)

    def bound(self, nodes):
        """The cost of the state that comes next after so many in the order of the search."""
        before = 0
        for cost, count in self.counts:
            before += count
            if nodes < before and (self.optimal is None or cost < self.optimal):
                return cost
        sys.exit(f"{sys.argv[0]}: the budget is not below the number of states that come before a goal")

    def solved(self, nodes):
        """What `solve` says, with its status; with a budget of all states it isn't spent."""
        if nodes < self.states:
            return f"Budget spent {nodes}, bound {self.bound(nodes)}, weak 0\n", 11
        if self.optimal is None:
            return "Unsolvable, weak 0\n", 10
        return f"Optimal {self.optimal}, weak 0\n", 0

    def checked(self, nodes):
        """What `check` says of the certificate alone."""
        if nodes < self.states:
            return f"Yes: no plan costs less than {self.bound(nodes)}\n"
        if self.optimal is None:
            return "Yes: there is no plan\n"
        return f"Yes: no plan costs less than {self.optimal}\n"

    def checked_with_plan(self):
        """What `check` says of the certificate and the plan, where there is one."""
        return f"Yes: the plan costs {self.optimal} and no plan costs less\n"


COUNTERS = """(define (domain counters) (:types counter)
(:functions (value ?c - counter))
(:action raise :parameters (?c - counter) :precondition (<= (value ?c) {below}) :effect (increase (value ?c) 1))
(:action lower :parameters (?c - counter) :precondition (>= (value ?c) 1) :effect (decrease (value ?c) 1)))
"""


def counters(most):
    """Three counters from 0 to the most. All are to be there, which is the last state of all."""
    names = ("a", "b", "c")
    start = " ".join(f"(= (value {name}) 0)" for name in names)
    goal = " ".join(f"(>= (value {name}) {most})" for name in names)
    problem = f"(define (problem p) (:domain counters) (:objects {' '.join(names)} - counter)\n(:init {start})\n(:goal (and {goal})))\n"
    costs = map(sum, itertools.product(range(most + 1), repeat=len(names)))
    return Task("three counters", COUNTERS.format(below=most - 1), problem, costs, 3 * most)


TILES = """(define (domain tiles) (:types tile place)
(:predicates (at ?t - tile ?p - place) (free ?p - place) (next ?p ?q - place))
(:action slide :parameters (?t - tile ?p ?q - place) :precondition (and (at ?t ?p) (free ?q) (next ?p ?q))
 :effect (and (not (at ?t ?p)) (not (free ?q)) (at ?t ?q) (free ?p))))
"""
SIDE = 3
PLACES = range(SIDE * SIDE)
# By place the tile that lies there; 0 is the free place.
TILES_START = (8, 6, 7, 2, 5, 4, 3, 0, 1)
TILES_GOAL = (1, 2, 3, 4, 5, 6, 7, 8, 0)
BESIDE = [[q for q in PLACES if abs(p // SIDE - q // SIDE) + abs(p % SIDE - q % SIDE) == 1] for p in PLACES]


def slides(tiles):
    """The states after one slide."""
    free = tiles.index(0)
    for place in BESIDE[free]:
        after = list(tiles)
        after[free], after[place] = tiles[place], 0
        yield tuple(after), 1


def tiles_facts(tiles):
    return " ".join(f"(at t{tile} p{place})" if tile else f"(free p{place})" for place, tile in enumerate(tiles))


def tiles():
    """The puzzle of eight tiles, from a state that is as far as can be from the goal."""
    beside = " ".join(f"(next p{p} p{q})" for p in PLACES for q in BESIDE[p])
    objects = " ".join(f"t{tile}" for tile in PLACES[1:]) + " - tile " + " ".join(f"p{place}" for place in PLACES) + " - place"
    problem = (
        f"(define (problem p) (:domain tiles) (:objects {objects})\n(:init {tiles_facts(TILES_START)}\n{beside})\n"
        f"(:goal (and {tiles_facts(TILES_GOAL)})))\n"
    )
    costs = cheapest(TILES_START, slides)
    return Task("eight tiles", TILES, problem, costs.values(), costs[TILES_GOAL])


TRANSPORT = """(define (domain transport) (:types truck box place)
(:predicates (at ?t - truck ?p - place) (lies ?b - box ?p - place) (in ?b - box ?t - truck))
(:functions (fuel ?t - truck) (room ?t - truck) (weight ?b - box) (length ?p ?q - place) (total-cost))
(:action drive :parameters (?t - truck ?p ?q - place)
 :precondition (and (at ?t ?p) (>= (length ?p ?q) 1) (>= (fuel ?t) (* 0.5 (length ?p ?q))))
 :effect (and (not (at ?t ?p)) (at ?t ?q) (decrease (fuel ?t) (* 0.5 (length ?p ?q))) (increase (total-cost) (length ?p ?q))))
(:action load :parameters (?b - box ?t - truck ?p - place)
 :precondition (and (at ?t ?p) (lies ?b ?p) (>= (room ?t) (weight ?b)))
 :effect (and (not (lies ?b ?p)) (in ?b ?t) (decrease (room ?t) (weight ?b)) (increase (total-cost) 1)))
(:action unload :parameters (?b - box ?t - truck ?p - place)
 :precondition (and (at ?t ?p) (in ?b ?t))
 :effect (and (not (in ?b ?t)) (lies ?b ?p) (increase (room ?t) (weight ?b)) (increase (total-cost) 1))))
"""
# Fuel, room and weights are counted by halves.
STOPS, FUEL, ROOM, WEIGHTS = 5, (9, 8), (6, 5), (2, 3, 2)


def length(p, q):
    return abs(p - q) + p * q % 3 if p != q else 0


def journeys(state):
    """The states after one step, with its cost: where each truck is, its fuel, and by box its stop, or after the stops its truck."""
    at, fuel, boxes = state
    for truck in (0, 1):
        for stop in range(STOPS):
            way = length(at[truck], stop)
            if 1 <= way <= fuel[truck]:
                left = fuel[truck] - way
                yield (put(at, truck, stop), put(fuel, truck, left), boxes), way
        room = ROOM[truck] - sum(weight for weight, box in zip(WEIGHTS, boxes) if box == STOPS + truck)
        for number, box in enumerate(boxes):
            if box == at[truck] and WEIGHTS[number] <= room:
                yield (at, fuel, put(boxes, number, STOPS + truck)), 1
            if box == STOPS + truck:
                yield (at, fuel, put(boxes, number, at[truck])), 1


def put(items, number, item):
    return items[:number] + (item,) + items[number + 1 :]


def transport():
    """Two trucks that carry boxes, where the goal asks for more fuel than is left after any drive that it asks for."""
    boxes = range(len(WEIGHTS))
    start = ((0, STOPS - 1), FUEL, tuple(number % STOPS for number in boxes))
    objects = "t0 t1 - truck " + " ".join(f"b{n}" for n in boxes) + " - box " + " ".join(f"p{n}" for n in range(STOPS)) + " - place"
    facts = [f"(at t{n} p{start[0][n]}) (= (fuel t{n}) {FUEL[n] / 2}) (= (room t{n}) {ROOM[n] / 2})" for n in (0, 1)]
    facts += [f"(lies b{n} p{start[2][n]}) (= (weight b{n}) {WEIGHTS[n] / 2})" for n in boxes]
    facts += [f"(= (length p{p} p{q}) {length(p, q)})" for p in range(STOPS) for q in range(STOPS)]
    goal = " ".join(f"(>= (fuel t{n}) {FUEL[n] / 2})" for n in (0, 1)) + " (not (at t0 p0))"
    problem = (
        f"(define (problem p) (:domain transport) (:objects {objects})\n(:init (= (total-cost) 0)\n" + "\n".join(facts)
        + f")\n(:goal (and {goal}))\n(:metric minimize (total-cost)))\n"
    )
    return Task("transport", TRANSPORT, problem, cheapest(start, journeys).values(), None)


def cheapest(start, after):
    """The least cost of each state that can be reached."""
    costs, open_states = {start: 0}, [(0, start)]
    while open_states:
        cost, state = heapq.heappop(open_states)
        if cost > costs[state]:
            continue
        for other, step in after(state):
            if cost + step < costs.get(other, cost + step + 1):
                costs[other] = cost + step
                heapq.heappush(open_states, (cost + step, other))
    return costs


def tasks():
    """All three."""
    return counters(99), tiles(), transport()
