//! Buffers of numbers.

use std::cell::RefCell;
use std::hint::black_box;

use super::upstream;
use crate::bench::Bench;
use crate::calls;
use crate::loops;
use crate::measure::Contender;
use crate::row::{Row, UPSTREAM};

pub fn measure(bench: &mut Bench) {
    bench.begin("Buffers");
    for many in [1_000, 1_000_000] {
        let items: Vec<u32> = (0..many).collect();
        made(bench, &items);
        bytes(bench, &items);
        read(bench, &items);
    }
    let items: Vec<u32> = (0..1_000).collect();
    sliced(bench, &items);
}

fn made(bench: &mut Bench, items: &[u32]) {
    let (list, many) = (items.as_ptr(), items.len());
    let row = |call: &str, ours| Row::new(call, Contender::of(ours)).items(many);
    let ours = move || unsafe { calls::bench_buffer_copy_from(list, many) };
    let row_of_copy = row(
        "`Buffer::copy_from`",
        Box::new(ours) as Box<dyn Fn() -> usize>,
    )
    .upstream(upstream!(Contender::of(move || {
        crate::upstream::buffer_copy_from(items)
    })))
    .plain(Contender::of(move || black_box(items.to_vec()).len()));
    bench.row(row_of_copy.at_most(1.1, UPSTREAM));
    let ours = move || unsafe { calls::bench_buffer_from_iter(many as u32) };
    let row_of_iter = row("`Buffer::from_iter` of a range", Box::new(ours))
        .upstream(upstream!(Contender::of(move || {
            crate::upstream::buffer_from_iter(many as u32)
        })))
        .plain(Contender::of(move || {
            black_box((0..many as u32).collect::<Vec<_>>()).len()
        }));
    bench.row(row_of_iter);
    let ours = move || unsafe { calls::bench_buffer_push(list, many) };
    let plain = move || {
        let mut pushed = Vec::new();
        for &item in items {
            pushed.push(item);
        }
        black_box(&pushed).len()
    };
    let row_of_push = row("`BufferMut::push`, one by one", Box::new(ours))
        .upstream(upstream!(Contender::of(move || {
            crate::upstream::buffer_push(items)
        })))
        .plain(Contender::of(plain));
    bench.row(row_of_push);
}

fn sliced(bench: &mut Bench, items: &[u32]) {
    let (list, many) = (items.as_ptr(), items.len());
    let ours = move |rounds| unsafe { calls::bench_buffer_slice(list, many, 16, rounds) };
    let row = Row::new("`Buffer::slice` and drop", Contender::in_rounds(ours))
        .items(many)
        .upstream(upstream!({
            let buffer = vortex_buffer::Buffer::<u32>::copy_from(items);
            Contender::of(move || crate::upstream::buffer_slice(&buffer, 16))
        }));
    bench.row(row.at_most(0.8, UPSTREAM));
}

fn bytes(bench: &mut Bench, items: &[u32]) {
    let (list, many) = (items.as_ptr(), items.len());
    let ours = move |rounds| unsafe { calls::bench_buffer_as_bytes(list, many, rounds) };
    let plain = move || {
        let bytes: Vec<u8> = items.iter().flat_map(|item| item.to_le_bytes()).collect();
        black_box(&bytes).len()
    };
    let row = Row::new("`as_bytes`, which copies", Contender::in_rounds(ours)).items(many);
    bench.row(row.plain(Contender::of(plain)));
}

fn read(bench: &mut Bench, items: &[u32]) {
    let bytes: &Vec<u8> = &items.iter().flat_map(|item| item.to_le_bytes()).collect();
    let ours = move || unsafe { calls::bench_buffer_read_from(bytes.as_ptr(), bytes.len()) };
    let over = RefCell::new(vec![0; bytes.len()]);
    let memcpy = move || {
        over.borrow_mut().copy_from_slice(bytes);
        0
    };
    let row = Row::new("`Buffer::read_from`", Contender::of(ours))
        .items(items.len())
        .upstream(upstream!(Contender::of(move || {
            crate::upstream::buffer_read_from(bytes)
        })))
        .plain(Contender::of(move || {
            black_box(&loops::read_from(bytes)).len()
        }))
        .beside("memcpy", Contender::of(memcpy));
    bench.row(row.at_most(1.1, UPSTREAM));
}
