//! A small host in Rust: it owns the tables, makes the calls of its tasks and lets those go on that a call wakes. Tasks
//! 0 and 1 are the host's own, in share 0; task 8 is a guest plugin, in share 1. host.c is the same in C, and host.out
//! is what both print.

/// The static library, as another host in Rust may take it over. What each function does stands in
/// include/message_manager.h.
mod message_manager {
    pub const QUEUES_SIZE: usize = 256;
    pub const POOL_SIZE: usize = 8192;
    pub const TASKS_SIZE: usize = 4352;
    pub const TASK_COUNT: usize = 32;
    pub const TASK_RECORD_SIZE: usize = 136;
    pub const IMAGE_RECORD_COUNT: usize = 112;
    pub const QUEUES: u8 = 0;
    pub const POOL: u8 = 1;
    const ANSWER_SIZE: usize = 16;

    pub const OPEN: u32 = 2;
    pub const WAIT: u32 = 0;
    pub const NO_WAIT: u32 = 1;

    pub const SUCCESSFUL: u32 = 0;
    pub const STATUS_NAMES: [&str; 17] = [
        "SUCCESSFUL", "INVALID_NAME", "INVALID_ID", "INVALID_SIZE", "INVALID_NUMBER", "TOO_MANY", "UNSATISFIED",
        "TIMEOUT", "OBJECT_WAS_DELETED", "INVALID_NODE", "CORRUPT", "BAD_CALLER", "ILLEGAL_ON_REMOTE_OBJECT",
        "NO_BUFFER", "WAITING", "INVALID_OPTION", "BAD_SHAPE",
    ];

    #[repr(C)]
    pub struct Answer {
        pub status: u32,
        pub value: u32,
        pub woken: u32,
    }

    #[repr(C)]
    #[derive(Clone, Copy, Default)]
    pub struct Difference {
        pub table: u8,
        pub number: u8,
        pub place: u8,
        pub count: u8,
    }

    extern "C" {
        fn message_manager_fresh_tables(
            queues: *mut u8, queues_size: usize, pool: *mut u8, pool_size: usize, tasks: *mut u8, tasks_size: usize,
            priorities: *const u8, priorities_size: usize,
        ) -> u32;
        fn message_queue_create(
            queues: *mut u8, queues_size: usize, pool: *const u8, pool_size: usize,
            tasks: *const u8, tasks_size: usize,
            caller: u32, name: u32, limit: u32, max_size: u32, attributes: u32,
            answer: *mut u8, answer_size: usize,
        ) -> u32;
        fn message_queue_ident(
            queues: *const u8, queues_size: usize, pool: *const u8, pool_size: usize,
            tasks: *const u8, tasks_size: usize,
            caller: u32, name: u32, share: u32,
            answer: *mut u8, answer_size: usize,
        ) -> u32;
        fn message_queue_delete(
            queues: *mut u8, queues_size: usize, pool: *mut u8, pool_size: usize, tasks: *mut u8, tasks_size: usize,
            caller: u32, id: u32,
            answer: *mut u8, answer_size: usize,
        ) -> u32;
        fn message_queue_send(
            queues: *mut u8, queues_size: usize, pool: *mut u8, pool_size: usize, tasks: *mut u8, tasks_size: usize,
            caller: u32, id: u32, message: *const u8, message_size: usize,
            answer: *mut u8, answer_size: usize,
        ) -> u32;
        fn message_queue_urgent(
            queues: *mut u8, queues_size: usize, pool: *mut u8, pool_size: usize, tasks: *mut u8, tasks_size: usize,
            caller: u32, id: u32, message: *const u8, message_size: usize,
            answer: *mut u8, answer_size: usize,
        ) -> u32;
        fn message_queue_broadcast(
            queues: *mut u8, queues_size: usize, pool: *const u8, pool_size: usize, tasks: *mut u8, tasks_size: usize,
            caller: u32, id: u32, message: *const u8, message_size: usize,
            answer: *mut u8, answer_size: usize,
        ) -> u32;
        fn message_queue_receive(
            queues: *mut u8, queues_size: usize, pool: *mut u8, pool_size: usize, tasks: *mut u8, tasks_size: usize,
            caller: u32, id: u32, option: u32, ticks: u32,
            answer: *mut u8, answer_size: usize,
        ) -> u32;
        fn message_queue_get_number_pending(
            queues: *const u8, queues_size: usize, pool: *const u8, pool_size: usize,
            tasks: *const u8, tasks_size: usize,
            caller: u32, id: u32,
            answer: *mut u8, answer_size: usize,
        ) -> u32;
        fn message_queue_flush(
            queues: *mut u8, queues_size: usize, pool: *mut u8, pool_size: usize, tasks: *const u8, tasks_size: usize,
            caller: u32, id: u32,
            answer: *mut u8, answer_size: usize,
        ) -> u32;
        fn message_clock_tick(
            queues: *mut u8, queues_size: usize, pool: *const u8, pool_size: usize, tasks: *mut u8, tasks_size: usize,
            answer: *mut u8, answer_size: usize,
        ) -> u32;
        fn message_manager_compare(
            one: *const u8, one_size: usize, two: *const u8, two_size: usize, list: *mut Difference, room: usize,
        ) -> Answer;
    }

    /// Lends an answer buffer to a call, given as its place and length, and reads the answer record.
    fn answer_of(call: impl FnOnce(*mut u8, usize) -> u32) -> Answer {
        let mut answer = [0u8; ANSWER_SIZE];
        let status = call(answer.as_mut_ptr(), answer.len());
        let word = |at: usize| u32::from_le_bytes([answer[at], answer[at + 1], answer[at + 2], answer[at + 3]]);
        Answer { status, value: word(4), woken: word(8) }
    }

    // Slices hold what the library asks for: they are not null, all their bytes are there, and one that is lent to be
    // written overlaps no other. So the functions below are safe for any arguments.

    /// The status.
    pub fn fresh_tables(queues: &mut [u8], pool: &mut [u8], tasks: &mut [u8], priorities: &[u8]) -> u32 {
        unsafe {
            message_manager_fresh_tables(
                queues.as_mut_ptr(), queues.len(), pool.as_mut_ptr(), pool.len(), tasks.as_mut_ptr(), tasks.len(),
                priorities.as_ptr(), priorities.len(),
            )
        }
    }

    pub fn create(
        queues: &mut [u8], pool: &[u8], tasks: &[u8], caller: u32, name: u32, limit: u32, max_size: u32,
        attributes: u32,
    ) -> Answer {
        answer_of(|answer, size| unsafe {
            message_queue_create(
                queues.as_mut_ptr(), queues.len(), pool.as_ptr(), pool.len(), tasks.as_ptr(), tasks.len(),
                caller, name, limit, max_size, attributes, answer, size,
            )
        })
    }

    pub fn ident(queues: &[u8], pool: &[u8], tasks: &[u8], caller: u32, name: u32, share: u32) -> Answer {
        answer_of(|answer, size| unsafe {
            message_queue_ident(
                queues.as_ptr(), queues.len(), pool.as_ptr(), pool.len(), tasks.as_ptr(), tasks.len(),
                caller, name, share, answer, size,
            )
        })
    }

    pub fn delete(queues: &mut [u8], pool: &mut [u8], tasks: &mut [u8], caller: u32, id: u32) -> Answer {
        answer_of(|answer, size| unsafe {
            message_queue_delete(
                queues.as_mut_ptr(), queues.len(), pool.as_mut_ptr(), pool.len(), tasks.as_mut_ptr(), tasks.len(),
                caller, id, answer, size,
            )
        })
    }

    pub fn send(
        queues: &mut [u8], pool: &mut [u8], tasks: &mut [u8], caller: u32, id: u32, message: &[u8],
    ) -> Answer {
        answer_of(|answer, size| unsafe {
            message_queue_send(
                queues.as_mut_ptr(), queues.len(), pool.as_mut_ptr(), pool.len(), tasks.as_mut_ptr(), tasks.len(),
                caller, id, message.as_ptr(), message.len(), answer, size,
            )
        })
    }

    pub fn urgent(
        queues: &mut [u8], pool: &mut [u8], tasks: &mut [u8], caller: u32, id: u32, message: &[u8],
    ) -> Answer {
        answer_of(|answer, size| unsafe {
            message_queue_urgent(
                queues.as_mut_ptr(), queues.len(), pool.as_mut_ptr(), pool.len(), tasks.as_mut_ptr(), tasks.len(),
                caller, id, message.as_ptr(), message.len(), answer, size,
            )
        })
    }

    pub fn broadcast(
        queues: &mut [u8], pool: &[u8], tasks: &mut [u8], caller: u32, id: u32, message: &[u8],
    ) -> Answer {
        answer_of(|answer, size| unsafe {
            message_queue_broadcast(
                queues.as_mut_ptr(), queues.len(), pool.as_ptr(), pool.len(), tasks.as_mut_ptr(), tasks.len(),
                caller, id, message.as_ptr(), message.len(), answer, size,
            )
        })
    }

    pub fn receive(
        queues: &mut [u8], pool: &mut [u8], tasks: &mut [u8], caller: u32, id: u32, option: u32, ticks: u32,
    ) -> Answer {
        answer_of(|answer, size| unsafe {
            message_queue_receive(
                queues.as_mut_ptr(), queues.len(), pool.as_mut_ptr(), pool.len(), tasks.as_mut_ptr(), tasks.len(),
                caller, id, option, ticks, answer, size,
            )
        })
    }

    pub fn get_number_pending(queues: &[u8], pool: &[u8], tasks: &[u8], caller: u32, id: u32) -> Answer {
        answer_of(|answer, size| unsafe {
            message_queue_get_number_pending(
                queues.as_ptr(), queues.len(), pool.as_ptr(), pool.len(), tasks.as_ptr(), tasks.len(),
                caller, id, answer, size,
            )
        })
    }

    pub fn flush(queues: &mut [u8], pool: &mut [u8], tasks: &[u8], caller: u32, id: u32) -> Answer {
        answer_of(|answer, size| unsafe {
            message_queue_flush(
                queues.as_mut_ptr(), queues.len(), pool.as_mut_ptr(), pool.len(), tasks.as_ptr(), tasks.len(),
                caller, id, answer, size,
            )
        })
    }

    pub fn tick(queues: &mut [u8], pool: &[u8], tasks: &mut [u8]) -> Answer {
        answer_of(|answer, size| unsafe {
            message_clock_tick(
                queues.as_mut_ptr(), queues.len(), pool.as_ptr(), pool.len(), tasks.as_mut_ptr(), tasks.len(),
                answer, size,
            )
        })
    }

    pub fn compare(one: &[u8], two: &[u8], list: &mut [Difference]) -> Answer {
        unsafe {
            message_manager_compare(one.as_ptr(), one.len(), two.as_ptr(), two.len(), list.as_mut_ptr(), list.len())
        }
    }
}

use message_manager::*;

struct Host {
    queues: [u8; QUEUES_SIZE],
    pool: [u8; POOL_SIZE],
    tasks: [u8; TASKS_SIZE],
}

/// Four letters as a number, as in rtems_build_name.
fn build_name(letters: &str) -> u32 {
    letters.bytes().fold(0, |name, letter| name << 8 | u32::from(letter))
}

fn status_name(status: u32) -> &'static str {
    STATUS_NAMES.get(status as usize).copied().unwrap_or("no such status")
}

impl Host {
    /// Fresh tables; task t has priority t + 1.
    fn new() -> Host {
        let mut host = Host { queues: [0; QUEUES_SIZE], pool: [0; POOL_SIZE], tasks: [0; TASKS_SIZE] };
        let priorities: [u8; TASK_COUNT] = std::array::from_fn(|task| task as u8 + 1);
        let status = fresh_tables(&mut host.queues, &mut host.pool, &mut host.tasks, &priorities);
        assert_eq!(status, SUCCESSFUL);
        host
    }

    // ---- In words

    /// How the last receive of a task ended, with the message that it got, which may be empty.
    fn show_received(&self, task: u32) {
        let record = &self.tasks[TASK_RECORD_SIZE * task as usize..][..TASK_RECORD_SIZE];
        let (status, message) = (u32::from(record[4]), &record[16..][..usize::from(record[5])]);
        print!("    task {task} goes on: {}", status_name(status));
        if status == SUCCESSFUL {
            print!(", \"{}\"", String::from_utf8_lossy(message));
        }
        println!();
    }

    /// The line of a call and its answer; a line for each task that it wakes follows.
    fn show(&self, call: &str, answer: &Answer) {
        let woken: Vec<u32> = (0..TASK_COUNT as u32).filter(|task| answer.woken >> task & 1 == 1).collect();
        print!("{call:<52}-> {}, value {}", status_name(answer.status), answer.value);
        print!("{}", if woken.is_empty() { "" } else { ", wakes" });
        woken.iter().for_each(|task| print!(" {task}"));
        println!();
        woken.iter().for_each(|task| self.show_received(*task));
    }

    /// The three tables, one behind the other.
    fn image(&self) -> Vec<u8> {
        [&self.queues[..], &self.pool[..], &self.tasks[..]].concat()
    }

    /// What has changed in the tables since before: a line for each record.
    fn show_changes(&self, before: &[u8]) {
        let mut list = [Difference::default(); IMAGE_RECORD_COUNT];
        let compared = compare(before, &self.image(), &mut list);
        for d in &list[..compared.value as usize] {
            let name = match d.table {
                QUEUES => "queue",
                POOL => "buffer",
                _ => "task",
            };
            println!("    {name} {}: first change at byte {}, bytes changed: {}", d.number, d.place, d.count);
        }
        if compared.status != SUCCESSFUL {
            println!("    not compared: {}", status_name(compared.status));
        } else if compared.value == 0 {
            println!("    no table byte changed");
        }
    }

    // ---- The calls of a task: the host knows which task runs, and passes its number

    /// The id of the new queue.
    fn create(&mut self, caller: u32, name: &str, limit: u32, max_size: u32, attributes: u32) -> u32 {
        let number = build_name(name);
        let answer =
            create(&mut self.queues, &self.pool, &self.tasks, caller, number, limit, max_size, attributes);
        let reach = if attributes & OPEN != 0 { "OPEN" } else { "closed" };
        self.show(&format!("task {caller}: create {name}, limit {limit}, max_size {max_size}, {reach}"), &answer);
        answer.value
    }

    fn ident(&self, caller: u32, name: &str, share: u32) {
        let answer = ident(&self.queues, &self.pool, &self.tasks, caller, build_name(name), share);
        self.show(&format!("task {caller}: ident {name} in share {share}"), &answer);
    }

    fn delete(&mut self, caller: u32, id: u32) {
        let answer = delete(&mut self.queues, &mut self.pool, &mut self.tasks, caller, id);
        self.show(&format!("task {caller}: delete {id}"), &answer);
    }

    fn send(&mut self, caller: u32, id: u32, text: &str) {
        let answer = send(&mut self.queues, &mut self.pool, &mut self.tasks, caller, id, text.as_bytes());
        self.show(&format!("task {caller}: send to {id} \"{text}\""), &answer);
    }

    fn urgent(&mut self, caller: u32, id: u32, text: &str) {
        let answer = urgent(&mut self.queues, &mut self.pool, &mut self.tasks, caller, id, text.as_bytes());
        self.show(&format!("task {caller}: urgent to {id} \"{text}\""), &answer);
    }

    fn broadcast(&mut self, caller: u32, id: u32, text: &str) {
        let answer = broadcast(&mut self.queues, &self.pool, &mut self.tasks, caller, id, text.as_bytes());
        self.show(&format!("task {caller}: broadcast to {id} \"{text}\""), &answer);
    }

    /// A task that waits is not run again until a mask wakes it; one that need not wait goes on at once.
    fn receive(&mut self, caller: u32, id: u32, option: u32, ticks: u32) {
        let answer = receive(&mut self.queues, &mut self.pool, &mut self.tasks, caller, id, option, ticks);
        let name = if option == WAIT { "WAIT" } else { "NO_WAIT" };
        self.show(&format!("task {caller}: receive from {id}, {name}, ticks {ticks}"), &answer);
        if answer.status == SUCCESSFUL {
            self.show_received(caller);
        }
    }

    fn get_number_pending(&self, caller: u32, id: u32) {
        let answer = get_number_pending(&self.queues, &self.pool, &self.tasks, caller, id);
        self.show(&format!("task {caller}: get number pending of {id}"), &answer);
    }

    fn flush(&mut self, caller: u32, id: u32) {
        let answer = flush(&mut self.queues, &mut self.pool, &self.tasks, caller, id);
        self.show(&format!("task {caller}: flush {id}"), &answer);
    }

    fn tick(&mut self) {
        let answer = tick(&mut self.queues, &self.pool, &mut self.tasks);
        self.show("tick", &answer);
    }

    /// A message that is too long, and a closed queue of another share: the tables stay as they are.
    fn try_refused_sends(&mut self, guest: u32, levels: u32, limits: u32) {
        let before = self.image();
        self.send(guest, levels, "level 40 on all 22");
        self.send(guest, limits, "level 40");
        self.show_changes(&before);
    }
}

// ---- The story

fn main() {
    let (task, other, guest) = (0, 1, 8);
    let mut host = Host::new();

    let levels = host.create(task, "LEVL", 4, 16, OPEN);
    let limits = host.create(task, "LIMT", 2, 8, 0);

    host.ident(guest, "LIMT", 0);
    host.ident(guest, "LEVL", 0);
    host.send(guest, levels, "level 40");
    host.try_refused_sends(guest, levels, limits);
    let before = host.image();
    host.urgent(guest, levels, "stop");
    host.show_changes(&before);

    host.get_number_pending(task, levels);
    host.receive(task, levels, NO_WAIT, 0);
    host.flush(task, levels);

    host.receive(task, levels, WAIT, 0);
    host.send(guest, levels, "level 41");

    // a heartbeat: an empty message
    host.send(guest, levels, "");
    host.get_number_pending(task, levels);
    host.receive(task, levels, NO_WAIT, 0);

    host.receive(task, levels, WAIT, 0);
    host.receive(other, levels, WAIT, 5);
    host.broadcast(guest, levels, "off");

    host.receive(other, levels, WAIT, 2);
    host.tick();
    host.tick();

    host.receive(other, limits, WAIT, 0);
    host.delete(task, limits);
}
