"""Wrong bodies of the floor, each as edits of a copy: the file, what stands there once, and what stands there then. `WRONG` is where the wrong body begins."""

NOBODY = "Wakes { watchers: false, worker: None }"


def no_call(call):
    return [("iso_floor/src/floor.rt", f"({call}, desk.wakes())", f"({call}, if WRONG {{ {NOBODY} }} else {{ desk.wakes() }})")]


OPENED_TWICE = [
    (
        "iso_floor/src/desk.rt",
        "        post_children(&mut self.scheduler, plan, class, owner)?;\n        let opened",
        "        post_children(&mut self.scheduler, plan, class, owner)?;\n        if WRONG {\n            post_children(&mut self.scheduler, plan, class, owner)?;\n        }\n        let opened",
    )
]
BROUGHT_ANYWHERE = [("iso_floor/src/turn.rt", "if !desk.is_loose(node) {", "if !WRONG && !desk.is_loose(node) {")]

EDITS = {
    # a node is put into the line of another of its keys than the one in its way
    "another-key": [
        (
            "iso_floor/src/desk.rt",
            "        self.hints.lock_in_the_way(plan, self.book.held(), node)\n",
            "        let lock = self.hints.lock_in_the_way(plan, self.book.held(), node)?;\n        if WRONG {\n            return plan.locks(node).first().copied();\n        }\n        Some(lock)\n",
        )
    ],
    # the marks of held keys aren't lowered at a Leave
    "not-lowered": [("iso_floor/src/scheduler.rt", "        self.renew(plan, held, node);\n        self.count_child(class);\n", "        if !WRONG {\n            self.renew(plan, held, node);\n        }\n        self.count_child(class);\n")],
    # a node that a key is in the way of stays `Loose`
    "stays-loose": [
        (
            "iso_floor/src/scheduler.rt",
            "        self.line_up(node, Line::Key(line))\n",
            "        if WRONG && self.is_loose(node) {\n            return Ok(());\n        }\n        self.line_up(node, Line::Key(line))\n",
        )
    ],
    # nobody is called at the end of a turn; of a Leave and the turn with it; of a Leave alone
    "no-call-turn": no_call("turn"),
    "no-call-leave-and-turn": no_call("next"),
    "no-call-leave": no_call("left"),
    # another worker is called than one that has something to wake for
    "another-called": [
        (
            "iso_desk/src/crew.rt",
            "        let worker = next_to_call(&self.members, scene)?;\n",
            "        let worker = next_to_call(&self.members, scene)?;\n        let worker = if WRONG {\n            another_of(&self.members, worker)\n        } else {\n            worker\n        };\n        if worker as usize >= self.members.len() {\n            return None;\n        }\n",
        ),
        (
            "iso_desk/src/crew.rt",
            "/// Whether a worker is to be called of whom this is kept.\n",
            "/// The lowest other worker that waits and wasn't called; the same where there is none.\nfn another_of(members: &[Member], worker: u32) -> u32 {\n    for (other, member) in members.iter().enumerate() {\n        let other = u32::try_from(other).unwrap_or(worker);\n        if other != worker && member.waits && !member.called {\n            return other;\n        }\n    }\n    worker\n}\n\n/// Whether a worker is to be called of whom this is kept.\n",
        ),
    ],
    # what is brought is attempted wherever it stands (alone it shows nothing: what is brought is `Loose`)
    "brought-anywhere": BROUGHT_ANYWHERE,
    # a class is opened up twice; and what is brought is attempted in any place
    "opened-twice": OPENED_TWICE,
    "opened-twice-brought": OPENED_TWICE + BROUGHT_ANYWHERE,
    # a class is opened up after all else that a turn looks for
    "opened-late": [
        (
            "iso_floor/src/turn.rt",
            "        if let Some(turn) = self.try_opened(desk) {\n            return turn;\n        }\n",
            "        if !WRONG && let Some(turn) = self.try_opened(desk) {\n            return turn;\n        }\n",
        ),
        (
            "iso_floor/src/turn.rt",
            "            let Some(node) = desk.next_for(self.worker()) else {\n                return Turn::Wait;\n",
            "            let Some(node) = desk.next_for(self.worker()) else {\n                if WRONG && let Some(turn) = self.try_opened(desk) {\n                    return turn;\n                }\n                return Turn::Wait;\n",
        ),
    ],
    # a worker waits as if it had looked into all deques just now
    "no-look": [
        (
            "iso_floor/src/desk.rt",
            "        self.scheduler.begin_wait(worker, seen);\n",
            "        let seen = if WRONG { Some(self.rounds()) } else { seen };\n        self.scheduler.begin_wait(worker, seen);\n",
        )
    ],
}
