//! One panel of the shop, after Algorithm 1 of Creek.
//!
//! Creek's lists are not kept one by one. The standing order, committed and
//! then tentative, is one array of slots; the executed list is a beginning of
//! it, and what follows that beginning is to be executed. The board is a stack
//! of slots whose beginning is the executed list; what stands on it above that
//! is to be rolled back, topmost first.

use crate::replica::refusal::*;
use crate::replica::request::*;

/// Nobody waits for the response.
pub const MARK_NONE: u8 = 0;
pub const MARK_WEAK: u8 = 1;
pub const MARK_TENTATIVE: u8 = 2;
pub const MARK_STABLE: u8 = 3;

/// What a call gives back. A field the call does not speak of is zero.
#[derive(Clone, Copy, Debug, Default, PartialEq, Eq)]
pub struct Answer {
    pub refusal: u8,
    /// The request to be spread, from make alone.
    pub request: Request,
    /// The request a step was about, or the number that a settlement lacks.
    pub number: Number,
    pub response: u32,
    pub mark: u8,
}

impl Answer {
    #[inline]
    fn refused(refusal: u8) -> Answer {
        Answer { refusal, ..Answer::default() }
    }
}

#[derive(Clone, Copy, Debug, Default, PartialEq, Eq)]
pub struct RegisterAnswer {
    pub refusal: u8,
    pub value: u32,
}

#[derive(Clone, Copy, Debug, Default, PartialEq, Eq)]
pub struct RequestAnswer {
    pub refusal: u8,
    pub request: Request,
}

/// What a panel has of a request; all but the refusal is zero where it is refused.
#[derive(Clone, Copy, Debug, Default, PartialEq, Eq)]
pub struct StatusAnswer {
    pub refusal: u8,
    /// The place in the standing order, counted from 1.
    pub place: usize,
    pub settled: bool,
    pub awaited: bool,
    pub executed: bool,
    /// What it responded, where it is executed.
    pub response: u32,
}

impl StatusAnswer {
    fn refused(refusal: u8) -> StatusAnswer {
        StatusAnswer { refusal, ..StatusAnswer::default() }
    }
}

#[derive(Clone)]
pub struct Panel {
    panels: u8,
    own: u8,

    /// The requests held, by slot. Rows of numbers not held mean nothing.
    held: NumberSet,
    strong: NumberSet,
    clocks: [Clock; REQUESTS],
    operations: [Operation; REQUESTS],
    contexts: [NumberSet; REQUESTS],

    /// The known set: weak numbers held and committed strong ones.
    causal_context: NumberSet,

    order: [u16; REQUESTS],
    accepted: usize,
    committed: usize,
    committed_set: NumberSet,
    settlements: usize,

    board: [u16; REQUESTS],
    /// What the registers of a request held before it, by its place on the
    /// board.
    before: [[u32; MOST_TOGETHER]; REQUESTS],
    on_board: usize,
    executed: usize,
    registers: [u32; REGISTERS],

    own_events: u8,
    /// The reading of the last own request, 0 before the first.
    own_clock: Clock,
    /// Own requests awaiting a reply, bit e−1 for event e.
    awaiting: u64,
    /// The response of the last carry-out, by slot.
    responses: [u32; REQUESTS],

    undos_done: u32,
    carry_outs_done: u32,
}

impl Panel {
    /// A panel at the start of a shift, with the refusal. A bad shop gives
    /// the only panel of a shop of one.
    pub fn fresh(panels: u8, own: u8) -> (u8, Panel) {
        if panels == 0 || panels as usize > PANELS || own >= panels {
            (BAD_SHOP, Panel::empty(1, 0))
        } else {
            (ACCEPTED, Panel::empty(panels, own))
        }
    }

    fn empty(panels: u8, own: u8) -> Panel {
        Panel {
            panels,
            own,
            held: NumberSet::EMPTY,
            strong: NumberSet::EMPTY,
            clocks: [Clock(0); REQUESTS],
            operations: [Operation::new(0, 0, 0, 0); REQUESTS],
            contexts: [NumberSet::EMPTY; REQUESTS],
            causal_context: NumberSet::EMPTY,
            order: [0; REQUESTS],
            accepted: 0,
            committed: 0,
            committed_set: NumberSet::EMPTY,
            settlements: 0,
            board: [0; REQUESTS],
            before: [[0; MOST_TOGETHER]; REQUESTS],
            on_board: 0,
            executed: 0,
            registers: [0; REGISTERS],
            own_events: 0,
            own_clock: Clock(0),
            awaiting: 0,
            responses: [0; REQUESTS],
            undos_done: 0,
            carry_outs_done: 0,
        }
    }

    // The calls that change the panel.

    /// A clock below the last own request's is raised to it, so that own
    /// requests stand in clock order as they do in event order.
    pub fn make(&mut self, operation: Operation, strong: bool, clock: Clock) -> Answer {
        if operation.is_bad() {
            return Answer::refused(BAD_OPERATION);
        }
        if self.own_events as usize == EVENTS {
            return Answer::refused(SHIFT_FULL);
        }
        let raised = clock.max(self.own_clock);
        self.own_events += 1;
        self.own_clock = raised;
        let number = Number::new(self.own, self.own_events);
        let place = self.place_in_clock_order(raised, number.slot());
        let context = if strong { self.context_at(place) } else { NumberSet::EMPTY };
        let request = Request { number, clock: raised, operation, strong, context };
        self.awaiting |= 1 << (self.own_events - 1);
        self.take_in(&request, place);
        Answer { request, ..Answer::default() }
    }

    pub fn hear(&mut self, request: &Request) -> Answer {
        let refusal = self.hear_refusal(request);
        if refusal != ACCEPTED {
            return Answer::refused(refusal);
        }
        let place = self.place_in_clock_order(request.clock, request.number.slot());
        self.take_in(request, place);
        Answer::default()
    }

    pub fn settle(&mut self, number: Number) -> Answer {
        if !self.in_shop(number) {
            return Answer::refused(BAD_NUMBER);
        }
        let slot = number.slot();
        if !self.held.contains(slot) {
            return Answer::refused(NOT_HERE);
        }
        if !self.strong.contains(slot) {
            return Answer::refused(WEAK);
        }
        if self.committed_set.contains(slot) {
            return Answer::refused(SETTLED_ALREADY);
        }
        if let Some(missing) = self.contexts[slot].first_outside(&self.causal_context) {
            return Answer { refusal: WAITS, number: missing, ..Answer::default() };
        }
        self.settlements += 1;
        self.causal_context.insert(slot);
        self.commit(slot);
        self.reply_at_commit(slot)
    }

    #[inline]
    pub fn undo(&mut self) -> Answer {
        if self.on_board == self.executed {
            return Answer::refused(NOTHING_TO_UNDO);
        }
        let slot = self.roll_back_top();
        Answer { number: Number::of_slot(slot), ..Answer::default() }
    }

    #[inline]
    pub fn carry_out(&mut self) -> Answer {
        if self.on_board > self.executed {
            return Answer::refused(UNDO_FIRST);
        }
        if self.executed == self.accepted {
            return Answer::refused(NOTHING_TO_DO);
        }
        let (slot, response, mark) = self.execute_next();
        Answer { number: Number::of_slot(slot), response, mark, ..Answer::default() }
    }

    /// Does every step that is due, so that the panel is idle, and gives
    /// their number. The replies are lost on the caller.
    pub fn run_due(&mut self) -> usize {
        let (undos, carry_outs) = self.run_due_telling(|_, _, _| ());
        (undos + carry_outs) as usize
    }

    /// Does every step that is due, tells number, response and mark of each
    /// carry-out, and gives how many undos and carry-outs there were.
    #[inline]
    pub fn run_due_telling(&mut self, mut tell: impl FnMut(Number, u32, u8)) -> (u32, u32) {
        let undos = self.on_board - self.executed;
        let carry_outs = self.accepted - self.executed;
        while self.on_board > self.executed {
            self.roll_back_top();
        }
        while self.executed < self.accepted {
            let (slot, response, mark) = self.execute_next();
            tell(Number::of_slot(slot), response, mark);
        }
        (undos as u32, carry_outs as u32)
    }

    // The calls that show something.

    pub fn register(&self, r: u8) -> RegisterAnswer {
        match self.registers.get(r as usize) {
            Some(&value) => RegisterAnswer { refusal: ACCEPTED, value },
            None => RegisterAnswer { refusal: BAD_OPERATION, value: 0 },
        }
    }

    pub fn accepted_requests(&self) -> usize {
        self.accepted
    }

    pub fn accepted_settlements(&self) -> usize {
        self.settlements
    }

    pub fn undos_done(&self) -> u32 {
        self.undos_done
    }

    pub fn carry_outs_done(&self) -> u32 {
        self.carry_outs_done
    }

    pub fn owed(&self) -> usize {
        (self.on_board - self.executed) + (self.accepted - self.executed)
    }

    /// The request at a place of the standing order, counted from 1.
    pub fn request_at(&self, place: usize) -> RequestAnswer {
        if place == 0 || place > self.accepted {
            return RequestAnswer { refusal: NOT_HERE, ..RequestAnswer::default() };
        }
        let slot = self.order[place - 1] as usize;
        RequestAnswer { refusal: ACCEPTED, request: self.request(slot) }
    }

    pub fn panels(&self) -> u8 {
        self.panels
    }

    pub fn own(&self) -> u8 {
        self.own
    }

    /// How many own requests there are.
    pub fn made(&self) -> u8 {
        self.own_events
    }

    pub fn status(&self, number: Number) -> StatusAnswer {
        if !self.in_shop(number) {
            return StatusAnswer::refused(BAD_NUMBER);
        }
        let slot = number.slot();
        let mut order = self.order[..self.accepted].iter();
        let Some(before) = order.position(|other| *other as usize == slot) else {
            return StatusAnswer::refused(NOT_HERE);
        };
        let executed = before < self.executed;
        StatusAnswer {
            refusal: ACCEPTED,
            place: before + 1,
            settled: before < self.committed,
            awaited: self.awaits(slot),
            executed,
            response: if executed { self.responses[slot] } else { 0 },
        }
    }

    // What the printout and a comparison look at besides.

    pub fn registers(&self) -> &[u32; REGISTERS] {
        &self.registers
    }

    pub fn causal_context(&self) -> &NumberSet {
        &self.causal_context
    }

    /// Own requests awaiting a reply, bit e−1 for event e.
    pub fn awaiting(&self) -> u64 {
        self.awaiting
    }

    /// The slots of the committed list, in order.
    pub fn committed(&self) -> &[u16] {
        &self.order[..self.committed]
    }

    /// The slots of the tentative list, in clock order.
    pub fn tentative(&self) -> &[u16] {
        &self.order[self.committed..self.accepted]
    }

    pub fn executed(&self) -> &[u16] {
        &self.order[..self.executed]
    }

    pub fn to_be_executed(&self) -> &[u16] {
        &self.order[self.executed..self.accepted]
    }

    /// The slots to be rolled back, the last of these first.
    pub fn to_be_rolled_back_reversed(&self) -> &[u16] {
        &self.board[self.executed..self.on_board]
    }

    /// The slots on the board in the order they were executed.
    pub fn board(&self) -> &[u16] {
        &self.board[..self.on_board]
    }

    /// The request held in a slot.
    pub fn request(&self, slot: usize) -> Request {
        Request {
            number: Number::of_slot(slot),
            clock: self.clocks[slot],
            operation: self.operations[slot],
            strong: self.strong.contains(slot),
            context: self.contexts[slot],
        }
    }

    // The parts of the calls.

    fn in_shop(&self, number: Number) -> bool {
        let event = number.event.0;
        number.panel.0 < self.panels && event >= 1 && event as usize <= EVENTS
    }

    fn hear_refusal(&self, request: &Request) -> u8 {
        if !self.in_shop(request.number) {
            return BAD_NUMBER;
        }
        if request.number.panel.0 == self.own {
            return OWN_ECHO;
        }
        if request.operation.is_bad() {
            return BAD_OPERATION;
        }
        if self.is_context_bad(request) {
            return BAD_CONTEXT;
        }
        let slot = request.number.slot();
        if !self.held.contains(slot) {
            ACCEPTED
        } else if self.request(slot) == *request {
            HELD_ALREADY
        } else {
            NUMBER_CLASH
        }
    }

    fn is_context_bad(&self, request: &Request) -> bool {
        let context = &request.context;
        if request.strong {
            context.contains(request.number.slot()) || context.names_panel_from(self.panels)
        } else {
            !context.is_empty()
        }
    }

    fn place_in_clock_order(&self, clock: Clock, slot: usize) -> usize {
        let key = (clock, slot);
        let earlier = |&other: &u16| (self.clocks[other as usize], other as usize) < key;
        self.committed + self.tentative().partition_point(earlier)
    }

    /// The context of a strong request made to stand at a place: what is
    /// known, but for the tentative requests behind it.
    fn context_at(&self, place: usize) -> NumberSet {
        let mut context = self.causal_context;
        for &slot in &self.order[place..self.accepted] {
            context.remove(slot as usize);
        }
        context
    }

    fn take_in(&mut self, request: &Request, place: usize) {
        let slot = request.number.slot();
        self.held.insert(slot);
        if request.strong {
            self.strong.insert(slot);
        } else {
            self.causal_context.insert(slot);
        }
        self.clocks[slot] = request.clock;
        self.operations[slot] = request.operation;
        self.contexts[slot] = request.context;
        self.order.copy_within(place..self.accepted, place + 1);
        self.order[place] = slot as u16;
        self.accepted += 1;
        self.executed = self.executed.min(place);
    }

    /// Moves the tentative requests in the context, and then the request
    /// itself, to the end of the committed list. All of the context is known,
    /// so what of it is not committed is tentative.
    fn commit(&mut self, request: usize) {
        let start = self.committed;
        let context = self.contexts[request];
        let mut moving = context.count_outside(&self.committed_set) + 1;
        let mut passed = [0; REQUESTS];
        let mut passed_len = 0;
        let mut from = start;
        while moving > 0 {
            let slot = self.order[from];
            from += 1;
            if slot as usize == request {
                moving -= 1;
            } else if context.contains(slot as usize) {
                moving -= 1;
                self.order[self.committed] = slot;
                self.committed += 1;
            } else {
                passed[passed_len] = slot;
                passed_len += 1;
            }
        }
        self.order[self.committed] = request as u16;
        self.committed += 1;
        self.order[self.committed..from].copy_from_slice(&passed[..passed_len]);
        self.committed_set.insert_all(&context);
        self.committed_set.insert(request);
        self.shrink_executed(start);
    }

    /// Cuts the executed list down to its common start with the standing
    /// order, which has changed nowhere before a place. The board still has
    /// the executed list as it was.
    fn shrink_executed(&mut self, unchanged: usize) {
        let mut place = unchanged;
        while place < self.executed && self.board[place] == self.order[place] {
            place += 1;
        }
        self.executed = self.executed.min(place);
    }

    /// The stable reply of a request that has just been committed, if it is
    /// executed. It is the last of the committed list.
    fn reply_at_commit(&mut self, slot: usize) -> Answer {
        if self.executed < self.committed || !self.awaits(slot) {
            return Answer::default();
        }
        self.end_waiting(slot);
        let response = self.responses[slot];
        Answer { response, mark: MARK_STABLE, ..Answer::default() }
    }

    fn awaits(&self, slot: usize) -> bool {
        slot / EVENTS == self.own as usize && self.awaiting >> (slot % EVENTS) & 1 == 1
    }

    fn end_waiting(&mut self, slot: usize) {
        self.awaiting &= !(1 << (slot % EVENTS));
    }

    /// Inlined in the loop over all due steps, as every part of a step is: a
    /// function of its own would save and restore registers at each.
    #[inline(always)]
    fn roll_back_top(&mut self) -> usize {
        self.on_board -= 1;
        let slot = self.board[self.on_board] as usize;
        self.operations[slot].put_back(&self.before[self.on_board], &mut self.registers);
        self.undos_done += 1;
        slot
    }

    #[inline(always)]
    fn execute_next(&mut self) -> (usize, u32, u8) {
        let place = self.executed;
        let slot = self.order[place] as usize;
        let operation = &self.operations[slot];
        operation.keep(&self.registers, &mut self.before[place]);
        let response = operation.execute(&mut self.registers);
        self.responses[slot] = response;
        self.board[place] = slot as u16;
        self.on_board += 1;
        self.executed += 1;
        self.carry_outs_done += 1;
        (slot, response, self.mark(slot, place))
    }

    #[inline]
    fn mark(&mut self, slot: usize, place: usize) -> u8 {
        if !self.awaits(slot) {
            MARK_NONE
        } else if !self.strong.contains(slot) {
            self.end_waiting(slot);
            MARK_WEAK
        } else if place >= self.committed {
            MARK_TENTATIVE
        } else {
            self.end_waiting(slot);
            MARK_STABLE
        }
    }
}
