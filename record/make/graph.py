"""The order of one round: what make considered, as tasks and what each of them waits for."""

from dataclasses import replace
from typing import Any, Dict, List, Optional, Set

from record.build.tasks import Build, Job, Node, reached
from record.make.database import Base
from record.make.owners import Make
from record.make.words import Round


class Graph:
    """The nodes of a round, and the tasks that are made of them."""

    def __init__(self, make: Make, number: int) -> None:
        self.round: Round = make.words.rounds[number]
        self.base: Base = self.round.base or Base()
        self.nodes = {name: replace(seen, done=max(seen.first, seen.done), prerequisites={**seen.prerequisites}, jobs=[]) for name, seen in self.round.nodes.items()}
        self.read_nodes()
        self.split_double_colons()
        self.join_grouped()
        self.wait_for_all_rules()  # guard: who-alone-needs-it-waits-for-all-rules

    def read_nodes(self) -> None:
        """What ran for the targets that make considered, or made without that, and what the data base says of them."""
        for job in self.round.jobs:
            if job.target not in self.nodes:
                self.nodes[job.target] = Node(job.target, job.target, 0, 0)
                self.round.goals.append(job.target)
            self.nodes[job.target].jobs.append(job)
        for name, node in self.nodes.items():
            node.must, node.has_recipe, node.phony = name in self.round.must, name in self.base.recipes, name in self.base.phony

    def split_double_colons(self) -> None:
        """The rules of one target run one after the other; who needs the target is only sure to wait for the first."""
        for name, rules in self.base.double.items():
            node = self.nodes.get(name)
            if node is None or len(rules) < 2:  # guard: users-wait-for-first-rule
                continue
            known = {p for rule in rules for p in rule.prerequisites + rule.order_only}
            loose = [p for p in node.prerequisites if p not in known]
            jobs, node.jobs = node.jobs, []
            parts = [node]
            for at in range(1, len(rules)):
                label = "%s@rule%d" % (name, at + 1)
                while label in self.nodes:
                    label += "+"
                self.nodes[label] = replace(node, label=label, prerequisites={}, jobs=[], rule=at)
                parts.append(self.nodes[label])
            for at, (part, rule) in enumerate(zip(parts, rules)):
                part.prerequisites = dict.fromkeys([p for p in rule.prerequisites + rule.order_only if p in self.nodes] + loose)
                if at:
                    part.prerequisites[parts[at - 1].label] = None  # guard: one-rule-after-other
            own = [part for part, rule in zip(parts, rules) if not rule.is_empty]
            is_known = not jobs or len(jobs) == len(own)  # guard: rules-without-recipe
            self.share_jobs(own if is_known else parts, jobs, node)
            if is_known:  # guard: what-unknown-rule-needs
                self.hold_back(parts)  # guard: what-later-rule-needs

    def share_jobs(self, parts: List[Node], jobs: List[Job], first: Node) -> None:
        """Gives each job to a rule. Where some rules with a recipe ran nothing, the k-th job is of the k-th rule or a later one: it has waited
        for what the k-th needs. Who needs the target waits for the first job, though that is of a later rule."""
        for part, job in zip(parts, jobs):
            part.jobs = [job]
        if jobs and parts[0] is not first:  # guard: who-waits-for-first-job
            for node in self.nodes.values():
                if first.label in node.prerequisites and node.name != first.name:
                    node.prerequisites.setdefault(parts[0].label)

    def wait_for_all_rules(self) -> None:
        """Who alone needs a double-colon target waits for all of its rules. Make passes over a target that it has met in the same pass, though the
        first rule may have ended since and the second not begun; so this holds where it comes to the target by one way alone."""
        for name, rules in self.base.double.items():
            users = self.users(name) if name in self.nodes and len(rules) > 1 else set()
            if len(users) == 1 and name not in self.round.goals and not self.has_more_ways({name, *users}):  # guard: two-that-need
                last = [label for label, node in self.nodes.items() if node.name == name][-1]
                for node in self.nodes.values():
                    if node.name in users and name in node.prerequisites:
                        node.prerequisites.setdefault(last)

    def users(self, name: str) -> Set[str]:
        """The other targets that need one, by make's words or by its data base."""
        base = self.base
        said = {one for one, seen in self.round.nodes.items() if name in seen.prerequisites}
        return (said | {one for one in self.nodes if name in base.prerequisites.get(one, ()) or name in base.order_only.get(one, ())}) - {name}  # guard: who-needs-it-by-data-base

    def has_more_ways(self, names: Set[str]) -> bool:
        """Whether make comes to the prerequisites of a target by another way than by that target: by one that is made with it, or as it is an intermediate file."""
        grouped = {one for name, others in self.base.also.items() for one in (name, *others)}
        return not names.isdisjoint(self.base.intermediate | grouped)  # guard: intermediate-file-needs

    def hold_back(self, parts: List[Node]) -> None:
        """What a later rule alone needs is looked at when the rule before it has ended."""
        for before, part in zip(parts, parts[1:]):
            without = self.reached_from([*self.round.goals, *(node.label for node in self.nodes.values() if node.rule and node is not part)], part)
            alone = self.reached_from([label for label in part.prerequisites if label != before.label]) - without
            for label in alone - {before.label, part.label}:
                self.nodes[label].prerequisites.setdefault(before.label)

    def reached_from(self, starts: List[str], but: Optional[Node] = None) -> Set[str]:
        """All that some targets need, by way of others too; what `but` needs does not count."""
        return reached(starts, lambda label: self.nodes[label].prerequisites if self.nodes.get(label, but) is not but else ()) & self.nodes.keys()

    def join_grouped(self) -> None:
        """Targets of one recipe: the one that make names has it, the others wait for it; not those that may be a part of a name with a blank."""
        parts = {part for name in self.base.prerequisites if " " in name for part in name.split()}
        for name, others in self.base.also.items():
            node = self.nodes.get(name)
            if node is None or not node.jobs:
                continue
            for other in (one for one in others if one not in parts):  # guard: names-with-blanks-of-one-recipe
                member = self.nodes.get(other)
                if member is not None and member is not node and not member.jobs:
                    member.prerequisites[name] = None  # guard: grouped-targets-wait-for-one-that-runs
                    node.prerequisites.pop(other, None)


class MakeBuild(Build):
    """The tasks of one round of a make."""

    make: Make
    tool = "make"

    def __init__(self, make: Make, graph: Graph) -> None:
        super().__init__(make, graph.round.stage, make.words.args, len(graph.round.nodes))
        self.graph = graph

    def about(self, at: int) -> Dict[str, Any]:
        """Where the recipe of a task stands, and its first line; of a rule with two colons also which of the target's rules it is."""
        base, node = self.graph.base, self.tasks[at].node
        if len(base.double.get(node.name, [])) > node.rule:
            rule = base.double[node.name][node.rule]
            return {"file": rule.place[0], "line": rule.place[1], "recipe": rule.first_line, "colons": node.rule + 1}
        places, recipe = base.places.get(node.name, []), base.recipes.get(node.name, [])
        file, line = places[node.rule] if node.rule < len(places) else ("", 0)
        return {"file": file, "line": line, "recipe": recipe[0] if recipe else ""}
