const C: u8 = 1;
static ST: u8 = 2;
struct U;
struct T();
struct R {}
union UN { a: u8 }
enum EM {}
fn F() {}
trait TR {}
type TA = U;
mod MO {}
static mut SM: u8 = 3;
struct T1(u8);
struct R1 { a: u8 }
fn f() { let S { C, ST, U, T, R, UN, F, TR, TA, MO, SM, EM, T1, R1, x, u8, str } = y; }
async fn g(C: u8, U: u8, T: u8, R: u8, UN: u8, TR: u8, TA: u8, MO: u8, EM: u8, T1: u8, R1: u8, x: u8, u8: u8) {}
fn h() { let S { mut C, ref U, V1 @ _, ref mut C, C @ C } = y; }
fn i() { match x { C => 1, U => 2, T => 3, T1 => 4, other => 5, ref C => 6, C @ _ => 7, (C, b) | (b, C) => 8 } }
