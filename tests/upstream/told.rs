fn f() { 'a: loop { || break 'a; break 'b; const { continue 'a }; } x.await; S { x, ..y } = z; #[cfg(no)]
    h(); async { y.await; || z.await } }
extern "C" { fn g((a, b): (u8, u8), c: u8, _: u8); }
trait T { fn h((a, b): (u8, u8)); fn k(mut x: u8); }
const C: u8 = x.await;
async fn i() { x.await; fn j() { y.await } }
gen fn k() { x.await }
fn l() { let x: [u8; break 'c] = y; }
fn m() { 'd: loop { let x: [u8; break 'd] = y; let y: A<{ break 'd }>; [0; break 'd]; } 'e: while break
    'e {} 'f: for x in break 'f {} 'g: for x in y { break 'g } gen { x.await } }
