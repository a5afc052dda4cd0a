//! The machine with its controllers and its history: who moves next, and how a run ends.

use crate::history::{Call, Entry};
use crate::machine::Machine;
use crate::scenarios::Scenario;
use crate::scripts::Script;

/// Who moves: a controller by its number, an lwp by the ids of its process and its own, or the clock.
#[derive(Clone, Copy)]
enum Actor {
    Controller(usize),
    Lwp(u32, u32),
    Clock,
}

/// A script, and the call that it makes next; none where it has finished.
struct Controller<'a> {
    script: Script<'a>,
    next: Option<Call>,
}

pub struct World<'a> {
    machine: Machine,
    controllers: Vec<Controller<'a>>,
    history: Vec<Entry>,
    turns: usize,
}

impl<'a> World<'a> {
    pub fn new(scenario: Scenario<'a>) -> World<'a> {
        let machine = Machine::new(&scenario);
        let controllers = scenario.scripts.into_iter().map(|lines| {
            let script = Script::new(lines);
            let next = script.next_call();
            Controller { script, next }
        });
        World {
            machine,
            controllers: controllers.collect(),
            history: Vec::with_capacity(scenario.turns),
            turns: scenario.turns,
        }
    }

    pub fn history(&self) -> &[Entry] {
        &self.history
    }

    fn controller_moves(&self, number: usize) -> bool {
        self.controllers[number]
            .next
            .as_ref()
            .is_some_and(|call| self.machine.is_ready(number, call))
    }

    /// Whether a controller waits for a moment that is still to come.
    fn clock_moves(&self) -> bool {
        self.controllers
            .iter()
            .any(|controller| match controller.next {
                Some(Call::CtlWait { until, .. }) => self.machine.clock < until,
                _ => false,
            })
    }

    /// Who moves next in a round: from a controller on, and from the lwps after one on.
    fn from_controller(&self, first: usize) -> Option<Actor> {
        (first..self.controllers.len())
            .find(|&number| self.controller_moves(number))
            .map(Actor::Controller)
            .or_else(|| self.from_lwp((0, 0)))
    }

    fn from_lwp(&self, after: (u32, u32)) -> Option<Actor> {
        self.machine
            .next_lwp(after)
            .map(|(pid, id)| Actor::Lwp(pid, id))
            .or_else(|| self.clock_moves().then_some(Actor::Clock))
    }

    /// Who moves next: after the last one in its round, or else the first of a new round.
    fn next_actor(&self, last: Actor) -> Option<Actor> {
        let in_round = match last {
            Actor::Controller(number) => self.from_controller(number + 1),
            Actor::Lwp(pid, id) => self.from_lwp((pid, id)),
            Actor::Clock => None,
        };
        in_round.or_else(|| self.from_controller(0))
    }

    /// Makes the next call of a controller, which is ready.
    fn call(&mut self, by: usize) -> Entry {
        let controller = &mut self.controllers[by];
        let call = controller
            .next
            .take()
            .expect("a controller that moves makes a call");
        let reply = self.machine.answer(by, &call);
        controller.script.feed(&reply);
        controller.next = controller.script.next_call();
        Entry::Call { by, call, reply }
    }

    fn step(&mut self, actor: Actor) -> Entry {
        match actor {
            Actor::Controller(number) => self.call(number),
            Actor::Lwp(pid, id) => {
                let (did, is_stop) = self.machine.turn(pid, id);
                Entry::Turn {
                    pid,
                    id,
                    did,
                    is_stop,
                }
            }
            Actor::Clock => {
                self.machine.clock += 1;
                Entry::Tick(self.machine.clock)
            }
        }
    }

    /// Moves one actor after the other, in rounds, and says how it ended.
    pub fn run(&mut self) -> u8 {
        let mut last = Actor::Clock;
        while let Some(actor) = self.next_actor(last) {
            if self.history.len() == self.turns {
                return 3;
            }
            let entry = self.step(actor);
            self.history.push(entry);
            last = actor;
        }
        let is_finished = self
            .controllers
            .iter()
            .all(|controller| controller.next.is_none());
        if is_finished {
            0
        } else {
            4
        }
    }
}
