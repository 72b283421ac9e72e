//! Words of every sort, between blanks: right ones, and odd ones that are right or wrong
//! ("Words of a line" and "What is wrong with a line" in `docs/DESK.md`).

use crate::desk::form::Sort;
use crate::dice::Dice;

/// Some are too high, and some of these would be low again if upper bits were lost.
const NUMBERS: &[u8] = b"0 000 7 0064 4294967295 0000000000004294967295 4294967296 4294967297 \
0004294967296 9999999999 18446744073709551616 18446744073709551617 \
340282366920938463463374607431768211461 \
x -1 +1 -0 1.5 1e3 0x1 1,000 1_000 1:2 1:2:3 5x x5 4294967296x # 5\r 5\0 \xff \xef\xbc\x91 5\x0b";

const SLICES: &[u8] =
    b"bands nodes marks band Bands NODES node mark markss bands, 0 nodes\0 bands\r";

/// A part of a key may be too high for a number by itself: it is out of its range all the same.
const KEYS: &[u8] = b"0:0:0 00:000:0000 2:3:5 63:31:1023 0063:0031:01023 0:0:1023 0:1:0 0:31:1023 \
1:0:0 63:0:0 0 000 2097151 002097152 4294967295 0000000000004294967295 \
4294967296 0004294967296 18446744073709551617 340282366920938463463374607431768211461 \
x -1 +5 5x 1:2 1:2:3:4 :2:3 1::3 1:2: :: : 1:2:x x:2:3 1:-2:3 1;2;3 64:x:0 [5,7] 5\r 1:2:3\r \xff \
4294967296x 4294967296: 4294967296:0 4294967296:x:0 x:0:4294967296 0:4294967296:-1 4294967296::0 \
64:0:0:4294967296 \
64:0:0 0:32:0 0:0:1024 63:31:1024 64:32:1024 256:0:0 0:256:0 0:0:65536 4294967295:0:0 \
4294967296:0:0 0:4294967296:0 0:0:4294967296 64:0:18446744073709551617 \
18446744073709551616:18446744073709551616:0 0:340282366920938463463374607431768211461:0";

/// Brackets and comma are judged before the keys, and the low end before the high one.
const STRETCHES: &[u8] = b"[100,400] (400,900] [2:3:5,2:3:90) (0:0:0,63:31:1023) [5,0:0:7] \
(0:0:5,00007) [400,100] (3,4) [7,7) [0,2097152] [4294967295,4294967295] (4294967295,0) \
100,400 [100,400 100,400] [100] [100400] [100;400] [100:400] {100,400} [100,400} <100,400> \
]100,400[ )100,400( ]100,400] [100,400[ [] () [ ] , 100 [100,400]\r \xff [x,400 [64:0:0,400 x,400] \
100,64:0:0) [4294967296,400 [4294967296] (64:0:0) [x] [, ,] \
[,] (,) [,,] [100,] [,400] [x,400] (100,x) [x,y] [-1,400] [100,+400] [1:2,400] [100,1:2:3:4] \
(100,1::3] [100,4294967296:0] [100,200,300] [100,,400] [[100,400]] [100,400]] ((100,400] \
[(1,2),(3,4)] [x,64:0:0] [x,4294967296] [64:0:0,400] [100,0:32:0] (0:0:1024,63:31:1023) \
[64:0:0,0:32:0) [64:0:0,x] [64:0:0,1,2] [64:0:0,4294967296] [4294967296:0:0,x] \
(100,0:0:18446744073709551617) [4294967296,400] [100,4294967296] (18446744073709551617,5) \
[4294967296,64:0:0] [4294967296,x] (4294967296,4294967296:0:0)";

/// Odd words of a sort.
pub fn odd_words(sort: Sort) -> impl Iterator<Item = &'static [u8]> {
    let words = match sort {
        Sort::Slice => SLICES,
        Sort::Key => KEYS,
        Sort::Stretch => STRETCHES,
        Sort::Number | Sort::BandNumber | Sort::Scope | Sort::Level | Sort::Lane | Sort::Place => {
            NUMBERS
        }
    };
    words.split(|&byte| byte == b' ')
}

/// A word that is right for the desk, though a call may still refuse it.
pub fn right_word(dice: &mut Dice, sort: Sort) -> Vec<u8> {
    let words: &[&[u8]] = match sort {
        Sort::Slice => &[b"bands", b"nodes", b"marks"],
        Sort::Key => &[b"0", b"2097151", b"2097152", b"4294967295", b"2:3:5", b"63:31:1023"],
        Sort::Stretch => &[b"[100,400]", b"(2:3:5,7)", b"[9,4294967295)", b"(7,0:0:7]"],
        Sort::Number | Sort::BandNumber | Sort::Scope | Sort::Level | Sort::Lane | Sort::Place => {
            &[b"0", b"1", b"64", b"007", b"9999", b"4294967295"]
        }
    };
    dice.pick(words).to_vec()
}

/// A right word or an odd one.
pub fn any_word(dice: &mut Dice, sort: Sort) -> Vec<u8> {
    if dice.one_in(2) {
        return right_word(dice, sort);
    }
    let odd: Vec<&[u8]> = odd_words(sort).collect();
    dice.pick(&odd).to_vec()
}
