//! Calls in the child of a fork of a process with threads.
#![cfg(all(target_os = "linux", target_env = "gnu"))]

use fowlyore::{MarkerTree, Requirement, Version};
use std::sync::atomic::{AtomicBool, Ordering};
use std::{panic, thread};

extern "C" {
    fn fork() -> i32;
    fn waitpid(process: i32, status: *mut i32, options: i32) -> i32;
    fn alarm(seconds: u32) -> u32;
    fn _exit(status: i32) -> !;
}

/// Whether values are read and compared as they are anywhere else.
fn works(shared: &MarkerTree) -> bool {
    let line: Requirement = "foo>=1 ; os_name == \"it's\" or extra == 'a'"
        .parse()
        .unwrap();
    let version: Version = "1.0rc1".parse().unwrap();
    line.marker == *shared
        && version < "1".parse().unwrap()
        && "foo>>1".parse::<Requirement>().is_err()
}

#[test]
fn children_of_a_process_with_threads_call() {
    let done = AtomicBool::new(false);
    let marker = || {
        "extra == 'a' or os_name == \"it's\""
            .parse::<MarkerTree>()
            .unwrap()
    };
    thread::scope(|scope| {
        for _ in 0..3 {
            scope.spawn(|| {
                while !done.load(Ordering::Relaxed) {
                    assert!(works(&marker()));
                }
            });
        }
        let failed = (0..100)
            .map(|_| status_of_child(&marker()))
            .find(|it| *it != 0);
        done.store(true, Ordering::Relaxed);
        assert_eq!(failed, None);
    });
}

/// How a child ended that made some calls: with status 0 if they answered as they should, and by a signal if
/// they never returned.
fn status_of_child(shared: &MarkerTree) -> i32 {
    // SAFETY: the child calls the library, allocates memory and ends; glibc keeps memory usable there.
    unsafe {
        let process = fork();
        if process == 0 {
            alarm(600);
            let fine = panic::catch_unwind(|| works(shared)).unwrap_or(false);
            _exit(i32::from(!fine));
        }
        let mut status = -1;
        assert_eq!(waitpid(process, &mut status, 0), process);
        status
    }
}
