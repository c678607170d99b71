//! The edge cases of the job sheet: the input of the test program `edges`, and what it must print.
//! For each line of `BY_HAND` what it must print was written by hand from documents 01 and 02, before any program ran it, with the reason beside it;
//! `expected` then asks that the second implementation says the same. The lines after those (500 points and more) are read off the second
//! implementation alone, but for what each gives back, which is by hand too.

use crate::random::Random;
use crate::sheet::{run, By};

/// A line, what is printed behind its number, and why.
type Line = (&'static [u8], &'static str, &'static str);

const BY_HAND: &[Line] = &[
    // ---- the empty table
    (b"Q\t0\t0\t1", "Q\t0\t0\t0\t0", "the empty table gives 0, 0, 0"),
    (b"Q\t0\t0\t17", "Q\t5", "k is checked on the empty table too"),
    (b"W\t1", "W\t8", "not enrolled"),
    (b"K\t1\t1", "K\t8", "not enrolled"),
    (b"K\t1\t17", "K\t5", "5 comes before 8"),
    (b"K\t0\t17", "K\t3", "3 comes before 5"),
    // ---- point numbers, coordinates, and the order of the checks
    (b"E\t0\t0\t0", "E\t3", "number 0"),
    (b"E\t10000\t0\t0", "E\t3", "number 10,000"),
    (b"E\t-1\t0\t0", "E\t3", "number -1"),
    (b"E\t1\t0\t0", "E\t0", "number 1"),
    (b"K\t1\t1", "K\t0\t0", "one station: its card is empty"),
    (b"K\t1\t16", "K\t0\t0", "with any k"),
    (b"Q\t0\t0\t1", "Q\t0\t1\t1\t1\t1", "one station, at q: it has no other, so it answers"),
    (b"E\t9999\t1000000\t1000000", "E\t0", "number 9,999; coordinates 1,000,000"),
    (b"K\t1\t1", "K\t0\t1\t9999", "two stations: each names the other"),
    (b"K\t9999\t1", "K\t0\t1\t1", "and the other way"),
    (b"K\t9999\t2", "K\t0\t1\t1", "k above the others: fewer names"),
    (b"E\t2\t1000001\t0", "E\t4", "x 1,000,001"),
    (b"E\t2\t0\t1000001", "E\t4", "y 1,000,001"),
    (b"E\t2\t-1000001\t0", "E\t4", "x -1,000,001"),
    (b"E\t2\t0\t-1000001", "E\t4", "y -1,000,001"),
    (b"E\t2\t-1000000\t-1000000", "E\t0", "coordinates -1,000,000"),
    (b"E\t1\t5\t5", "E\t6", "enrolled twice, at another place"),
    (b"E\t1\t0\t0", "E\t6", "enrolled twice, at its own place"),
    (b"E\t1\t1000001\t5", "E\t4", "4 comes before 6"),
    (b"E\t0\t1000001\t0", "E\t3", "3 comes before 4"),
    (b"W\t0", "W\t3", "number 0"),
    (b"W\t10000", "W\t3", "number 10,000"),
    (b"W\t-1", "W\t3", "number -1"),
    (b"W\t3", "W\t8", "not enrolled"),
    // ---- k, with 1 at (0,0), 9999 at (1000000,1000000), 2 at (-1000000,-1000000) in one leaf: one node is opened
    (b"Q\t0\t0\t1", "Q\t0\t1\t1\t1\t1", "1 is at q, and so exactly as near to 9999 and to 2 as q is: it drops both"),
    (b"Q\t0\t0\t16", "Q\t0\t3\t3\t1\t1\t2\t9999", "k 16; with k or fewer points every point answers"),
    (b"Q\t0\t0\t0", "Q\t5", "k 0"),
    (b"Q\t0\t0\t17", "Q\t5", "k 17"),
    (b"Q\t0\t0\t-1", "Q\t5", "k -1"),
    (b"Q\t0\t0\t9999999", "Q\t5", "k of seven digits"),
    (b"Q\t1000001\t0\t1", "Q\t4", "x off the grid"),
    (b"Q\t0\t-1000001\t1", "Q\t4", "y off the grid"),
    (b"Q\t1000001\t0\t17", "Q\t4", "4 comes before 5"),
    (b"Q\t1000000\t-1000000\t1", "Q\t0\t0\t1\t1", "1 (2e12 from each) drops 2 and 9999 (4e12 from q), and fails by them: q is at 2e12 too"),
    (b"Q\t-1000000\t1000000\t2", "Q\t0\t2\t3\t1\t2\t9999", "the other corner, k 2: 1 alone drops nothing; 1 fails by both, 2 and 9999 are 8e12 apart"),
    // ---- the card's number and k, with the same three
    (b"K\t2\t1", "K\t0\t1\t1", "squares from 2: 1 has 2e12, 9999 has 8e12, the greatest there is"),
    (b"K\t2\t2", "K\t0\t2\t1\t9999", "and then 9999"),
    (b"K\t1\t1", "K\t0\t1\t2", "2 and 9999 are as far from 1: the lower number"),
    (b"K\t1\t16", "K\t0\t2\t2\t9999", "k 16: fewer are enrolled"),
    (b"K\t3\t1", "K\t8", "number 3 is not enrolled"),
    (b"K\t9998\t16", "K\t8", "nor is 9,998"),
    (b"K\t0\t1", "K\t3", "number 0"),
    (b"K\t10000\t1", "K\t3", "number 10,000"),
    (b"K\t-1\t1", "K\t3", "number -1"),
    (b"K\t9999999\t1", "K\t3", "a number of seven digits"),
    (b"K\t-9999999\t1", "K\t3", "and with a minus"),
    (b"K\t1\t0", "K\t5", "k 0"),
    (b"K\t1\t17", "K\t5", "k 17"),
    (b"K\t1\t-1", "K\t5", "k -1"),
    (b"K\t1\t9999999", "K\t5", "k of seven digits"),
    (b"K\t10000\t17", "K\t3", "3 comes before a k out of range"),
    (b"K\t-1\t0", "K\t3", "3 comes before a k out of range"),
    (b"K\t3\t0", "K\t5", "5 comes before 8"),
    // ---- the card's k missing
    (b"K\t1", "K\t5", "no further field"),
    (b"K\t1\t", "K\t5", "just one, empty"),
    (b"K\t0", "K\t5", "a missing k comes before 3"),
    (b"K\t10000\t", "K\t5", "a missing k comes before 3"),
    (b"K\t-5", "K\t5", "a missing k comes before 3"),
    (b"K\t3", "K\t5", "a missing k comes before 8"),
    (b"K\t1\t\t", "?\t11", "two, both empty"),
    (b"K\t1\t\t1", "?\t11", "an empty one and another"),
    (b"K\t1\t1\t", "?\t11", "k and an empty one"),
    (b"K\t1\t1\t1", "?\t11", "a field too many"),
    (b"K\t01", "?\t11", "no k, but the number has a leading zero"),
    (b"K\t-0\t", "?\t11", "k is empty, but the number is -0"),
    (b"K\tx", "?\t11", "no k, but the number is none"),
    (b"K\t12345678\t", "?\t11", "k is empty, but the number has eight digits"),
    (b"K", "?\t11", "the letter alone"),
    (b"K\t", "?\t11", "an empty number and no k"),
    (b"K\t\t", "?\t11", "an empty number and an empty k"),
    (b"K\t\t1", "?\t11", "an empty number"),
    (b"K\t00\t1", "?\t11", "the number is 00"),
    (b"K\t+1\t1", "?\t11", "the number has a plus sign"),
    (b"K\t1\tk", "?\t11", "k is no number"),
    (b"K\t1\t01", "?\t11", "k has a leading zero"),
    (b"K\t1\t-0", "?\t11", "k is -0"),
    (b"K\t1\t ", "?\t11", "a space is not empty and no number"),
    (b"K\t1\t\r", "?\t11", "a carriage return is not empty and no number"),
    (b"K\t1\r", "?\t11", "a carriage return behind the number"),
    (b"K\t1\t10000000", "?\t11", "k has eight digits"),
    (b"K 1 1", "?\t11", "spaces part no fields"),
    // ---- k missing
    (b"Q\t0\t0", "Q\t5", "no further field"),
    (b"Q\t0\t0\t", "Q\t5", "just one, empty"),
    (b"Q\t0\t0\t\t", "?\t11", "two, both empty"),
    (b"Q\t0\t0\t\t1", "?\t11", "an empty one and another"),
    (b"Q\t0\t0\t1\t", "?\t11", "k and an empty one"),
    (b"Q\t1000001\t0", "Q\t5", "sound and off the grid: 5 comes before any other check"),
    (b"Q\t0\t-9999999\t", "Q\t5", "sound and off the grid, one empty field"),
    (b"Q\tx\t0", "?\t11", "x is no number"),
    (b"Q\t0\ty\t", "?\t11", "y is no number"),
    (b"Q\t\t0\t", "?\t11", "x is empty, so no number"),
    (b"Q\t0\t", "?\t11", "y is empty, so no number"),
    (b"Q\t-0\t0", "?\t11", "x is -0, so no number"),
    (b"Q\t0\t00", "?\t11", "y has a leading zero, so it is no number"),
    (b"Q\t0", "?\t11", "no y"),
    (b"Q\t", "?\t11", "an empty x and no y"),
    (b"Q", "?\t11", "the letter alone"),
    (b"Q\t0\t0\t ", "?\t11", "a space is not empty and no number"),
    (b"Q\t0\t0\t\r", "?\t11", "a carriage return is not empty and no number"),
    (b"Q\t0\t0\r", "?\t11", "a carriage return behind y"),
    (b"Q\t0\t0\tk", "?\t11", "k is no number"),
    (b"Q\t0\t0\t01", "?\t11", "k has a leading zero"),
    (b"Q\t0\t0\t-0", "?\t11", "k is -0"),
    (b"Q\t0\t0\t+1", "?\t11", "k has a plus sign"),
    (b"Q\t0\t0\t1\t1", "?\t11", "a field too many"),
    // ---- numbers
    (b"E\t3\t00\t0", "?\t11", "two zeros"),
    (b"E\t3\t01\t0", "?\t11", "a leading zero"),
    (b"E\t3\t-01\t0", "?\t11", "a leading zero behind a minus"),
    (b"E\t3\t-0\t0", "?\t11", "-0"),
    (b"E\t03\t0\t0", "?\t11", "a leading zero in the point number"),
    (b"E\t3\t+1\t0", "?\t11", "a plus sign"),
    (b"E\t3\t0\t--1", "?\t11", "two minuses"),
    (b"E\t3\t0\t-", "?\t11", "a minus alone"),
    (b"E\t3\t0\t1-", "?\t11", "a minus behind"),
    (b"E\t3\t9999999\t0", "E\t4", "seven digits are a number"),
    (b"E\t3\t0\t-9999999", "E\t4", "a minus and seven digits are a number"),
    (b"E\t9999999\t0\t0", "E\t3", "seven digits in the point number"),
    (b"E\t3\t12345678\t0", "?\t11", "eight digits"),
    (b"E\t3\t0\t-12345678", "?\t11", "a minus and eight digits"),
    (b"E\t10000000\t0\t0", "?\t11", "eight digits in the point number"),
    (b"E\t3\t00000000001\t0", "?\t11", "many zeros"),
    (b"E\t3\t18446744073709551617\t0", "?\t11", "would be 1 in 64 bits"),
    (b"E\t3\t1.0\t0", "?\t11", "a point"),
    (b"E\t3\t1e1\t0", "?\t11", "an exponent"),
    (b"E\t3\t0x1\t0", "?\t11", "hexadecimal"),
    (b"E\t3\t1,0\t0", "?\t11", "a comma"),
    (b"E\t3\t/\t:", "?\t11", "the bytes beside the digits"),
    // ---- fields
    (b"E\t3\t\t0", "?\t11", "an empty field"),
    (b"E\t\t0\t0", "?\t11", "an empty point number"),
    (b"E\t3\t0\t", "?\t11", "an empty y"),
    (b"E\t3\t\t0\t0", "?\t11", "two tabs together: a field too many"),
    (b"E\t\t3\t0\t0", "?\t11", "two tabs behind the letter"),
    (b"E\t3\t0\t0\t", "?\t11", "a tab at the end"),
    (b"E\t3\t0\t0\t0", "?\t11", "a field too many"),
    (b"E\t3\t0", "?\t11", "a field too few"),
    (b"E\t3", "?\t11", "two fields too few"),
    (b"E", "?\t11", "the letter alone"),
    (b"E\t", "?\t11", "the letter and a tab"),
    (b"\tE\t3\t0\t0", "?\t11", "a tab before the letter"),
    (b"W", "?\t11", "the letter alone"),
    (b"W\t", "?\t11", "an empty number"),
    (b"W\t1\t", "?\t11", "a tab at the end"),
    (b"W\t1\t1", "?\t11", "a field too many"),
    (b"W\t-", "?\t11", "a minus alone"),
    // ---- bytes
    (b"E 3 0 0", "?\t11", "spaces part no fields"),
    (b"E\t3\t 0\t0", "?\t11", "a space before a number"),
    (b"E\t3\t0 \t0", "?\t11", "a space behind a number"),
    (b" E\t3\t0\t0", "?\t11", "a space before the letter"),
    (b"E\t3\t0\t0\r", "?\t11", "a carriage return at the end"),
    (b"\r", "?\t11", "a carriage return alone"),
    (b"E\t3\t0\t0\0", "?\t11", "a NUL at the end"),
    (b"W\t\x001", "?\t11", "a NUL before a digit"),
    (b"\0", "?\t11", "a NUL alone"),
    (b"W\t\xb1", "?\t11", "the digit 1 with the high bit"),
    (b"W\t\xd9\xa1", "?\t11", "an Arabic digit in UTF-8"),
    (b"W\t\xe2\x88\x921", "?\t11", "a minus sign in UTF-8"),
    (b"\xef\xbb\xbfW\t1", "?\t11", "a byte order mark"),
    (b"\xff\xfe\x80", "?\t11", "bytes above 127"),
    (b"\xc5\t3\t0\t0", "?\t11", "E with the high bit"),
    // ---- letters
    (b"e\t3\t0\t0", "?\t11", "a lower case letter"),
    (b"w\t1", "?\t11", "a lower case letter"),
    (b"q\t0\t0\t1", "?\t11", "a lower case letter"),
    (b"k\t1\t1", "?\t11", "a lower case letter"),
    (b"k\t1", "?\t11", "a lower case letter, and no k"),
    (b"KK\t1\t1", "?\t11", "two letters"),
    (b"J\t1\t1", "?\t11", "the letter before K"),
    (b"\xcb\t1\t1", "?\t11", "K with the high bit"),
    (b"EE\t3\t0\t0", "?\t11", "two letters"),
    (b"WQ\t1", "?\t11", "two letters"),
    (b"X\t1", "?\t11", "another letter"),
    (b"?\t1", "?\t11", "the letter of a misshapen line"),
    (b"1\tE\t0", "?\t11", "a line of the output"),
    (b"D\t3\t0\t0", "?\t11", "the letter before E"),
    (b"", "?\t11", "an empty line"),
    (b"", "?\t11", "another"),
    (b"\t", "?\t11", "a tab alone"),
    (b"\t\t\t", "?\t11", "four empty fields"),
    // ---- none of these changed anything
    (b"Q\t0\t0\t16", "Q\t0\t3\t3\t1\t1\t2\t9999", "the same three points"),
    // ---- withdrawn twice, and enrolled again
    (b"W\t2", "W\t0", "withdrawn"),
    (b"W\t2", "W\t8", "withdrawn twice"),
    (b"E\t2\t4\t0", "E\t0", "enrolled again, elsewhere"),
    (b"E\t2\t4\t0", "E\t6", "enrolled twice"),
    (b"W\t9999", "W\t0", "withdrawn"),
    (b"E\t3\t10\t0", "E\t0", "now 1 (0,0), 2 (4,0), 3 (10,0), as in document 01"),
    (b"Q\t5\t0\t1", "Q\t0\t2\t2\t1\t2\t3", "document 01's example"),
    (b"Q\t5\t0\t2", "Q\t0\t3\t3\t1\t1\t2\t3", "document 01's example"),
    (b"Q\t8\t0\t1", "Q\t0\t1\t2\t1\t3", "document 01's example as 02 amends it: 1 is exactly as near to 2 as q is, so 2 fails the final test"),
    (b"E\t4\t8\t0", "E\t0", "a newcomer there, numbered above all"),
    (b"K\t3\t1", "K\t0\t1\t4", "3 answered: its card names the newcomer (4, where 2 is at 36)"),
    (b"K\t2\t1", "K\t0\t1\t1", "2 did not: 1 and 4 are at 16, the old name stays"),
    (b"K\t1\t1", "K\t0\t1\t2", "1 did not: 2 is at 16, 4 at 64"),
    (b"W\t4", "W\t0", "it leaves"),
    (b"E\t4\t4\t0", "E\t0", "at the place of 2"),
    (b"Q\t5\t0\t1", "Q\t0\t1\t2\t1\t3", "2 drops 4 and 1; the final test drops 2, since 4 is at its place"),
    (b"Q\t5\t0\t2", "Q\t0\t3\t3\t1\t2\t3\t4", "2 and 4 together drop 1"),
    (b"Q\t4\t0\t1", "Q\t0\t0\t1\t1", "2 is at q and drops all others; 4, at q too, is as near to 2: a point at q may not answer"),
    (b"Q\t4\t0\t2", "Q\t0\t2\t2\t1\t2\t4", "2 and 4 together drop 1 and 3; each has the other alone at its place"),
    (b"Q\t4\t0\t3", "Q\t0\t4\t4\t1\t1\t2\t3\t4", "1 and 3 have just two as near, 2 and 4"),
    (b"Q\t4\t0\t4", "Q\t0\t4\t4\t1\t1\t2\t3\t4", "with k or fewer points every point answers"),
    (b"E\t5\t4\t0", "E\t0", "a newcomer at the place of 2 and 4, numbered above all"),
    (b"K\t2\t1", "K\t0\t1\t4", "nobody answered with k 1: 4 and 5 are at 0"),
    (b"K\t3\t1", "K\t0\t1\t2", "2, 4 and 5 are at 36"),
    (b"K\t2\t2", "K\t0\t2\t4\t5", "with k 2 2 answered"),
    (b"K\t4\t2", "K\t0\t2\t2\t5", "and 4"),
    (b"K\t1\t2", "K\t0\t2\t2\t4", "but not 1: 2, 4 and 5 are at 16"),
    (b"K\t1\t3", "K\t0\t3\t2\t4\t5", "with k 3 all answered"),
    (b"K\t3\t3", "K\t0\t3\t2\t4\t5", "3 among them"),
    (b"W\t5", "W\t0", "it leaves"),
    (b"W\t1", "W\t0", "withdrawn"),
    (b"W\t3", "W\t0", "withdrawn"),
    (b"W\t2", "W\t0", "withdrawn"),
    (b"W\t4", "W\t0", "the last point"),
    (b"W\t4", "W\t8", "withdrawn twice"),
    (b"Q\t4\t0\t1", "Q\t0\t0\t0\t0", "the empty table again"),
    (b"K\t4\t1", "K\t8", "who has left has no card"),
    // ---- cards of one leaf: six at one place, enrolled in falling order; 1 and 4 as far from there as each other
    (b"E\t8\t100\t100", "E\t0", "8"),
    (b"E\t7\t100\t100", "E\t0", "7, where 8 is"),
    (b"E\t6\t100\t100", "E\t0", "6"),
    (b"E\t5\t100\t100", "E\t0", "5"),
    (b"E\t3\t100\t100", "E\t0", "3"),
    (b"E\t2\t100\t100", "E\t0", "2"),
    (b"K\t7\t1", "K\t0\t1\t2", "all at distance 0: the lowest number, though 2 came last"),
    (b"K\t2\t1", "K\t0\t1\t3", "never itself"),
    (b"K\t5\t3", "K\t0\t3\t2\t3\t6", "the three lowest but 5"),
    (b"K\t8\t5", "K\t0\t5\t2\t3\t5\t6\t7", "k is just how many others there are"),
    (b"K\t8\t4", "K\t0\t4\t2\t3\t5\t6", "one fewer"),
    (b"E\t4\t105\t100", "E\t0", "4: 25 from the six"),
    (b"E\t1\t103\t104", "E\t0", "1: 9 + 16 = 25 from the six, and 4 + 16 = 20 from 4"),
    (b"K\t2\t16", "K\t0\t7\t3\t5\t6\t7\t8\t1\t4", "five at 0, then 1 and 4 at 25"),
    (b"K\t2\t6", "K\t0\t6\t3\t5\t6\t7\t8\t1", "of 1 and 4 the lower"),
    (b"K\t1\t3", "K\t0\t3\t4\t2\t3", "4 at 20, then the lowest of six at 25"),
    (b"K\t4\t1", "K\t0\t1\t1", "1 at 20, and no lower number at 25 comes before it"),
    (b"W\t3", "W\t0", "3 leaves"),
    (b"K\t2\t16", "K\t0\t6\t5\t6\t7\t8\t1\t4", "no card names it any more"),
    (b"K\t2\t1", "K\t0\t1\t5", "the next takes its place"),
    (b"K\t3\t1", "K\t8", "and it has none itself"),
    (b"E\t3\t100\t101", "E\t0", "3 comes back, 1 away from the five"),
    (b"K\t2\t5", "K\t0\t5\t5\t6\t7\t8\t3", "four at 0, then 3 at 1"),
    (b"K\t3\t1", "K\t0\t1\t2", "five at 1"),
    (b"W\t3", "W\t0", "withdrawn"),
    (b"W\t1", "W\t0", "withdrawn"),
    (b"W\t4", "W\t0", "withdrawn"),
    (b"W\t2", "W\t0", "withdrawn"),
    (b"W\t5", "W\t0", "withdrawn"),
    (b"W\t6", "W\t0", "withdrawn"),
    (b"W\t8", "W\t0", "withdrawn"),
    (b"K\t7\t16", "K\t0\t0", "alone again"),
    (b"W\t7", "W\t0", "the last point"),
    // ---- ten at one place, enrolled in falling order: at nine the leaf is split, the order kept, so slot 0 holds 30 to 27 and then 21, slot 1 holds 26 to 22
    (b"E\t30\t-5\t5", "E\t0", "30"),
    (b"E\t29\t-5\t5", "E\t0", "29"),
    (b"E\t28\t-5\t5", "E\t0", "28"),
    (b"E\t27\t-5\t5", "E\t0", "27"),
    (b"E\t26\t-5\t5", "E\t0", "26"),
    (b"E\t25\t-5\t5", "E\t0", "25"),
    (b"E\t24\t-5\t5", "E\t0", "24"),
    (b"E\t23\t-5\t5", "E\t0", "23"),
    (b"E\t22\t-5\t5", "E\t0", "22"),
    (b"E\t21\t-5\t5", "E\t0", "21"),
    (b"K\t26\t1", "K\t0\t1\t21", "21, in the other leaf"),
    (b"K\t26\t4", "K\t0\t4\t21\t22\t23\t24", "21 in the other leaf, and before 27 to 30 there the three of its own"),
    (b"K\t30\t2", "K\t0\t2\t21\t22", "21 in its own leaf, 22 in the other"),
    (b"K\t30\t6", "K\t0\t6\t21\t22\t23\t24\t25\t26", "all of the other leaf before 27 in its own"),
    (b"K\t21\t16", "K\t0\t9\t22\t23\t24\t25\t26\t27\t28\t29\t30", "all others"),
    (b"W\t21", "W\t0", "withdrawn"),
    (b"W\t22", "W\t0", "withdrawn"),
    (b"W\t23", "W\t0", "withdrawn"),
    (b"W\t24", "W\t0", "withdrawn"),
    (b"W\t25", "W\t0", "withdrawn"),
    (b"W\t26", "W\t0", "withdrawn"),
    (b"W\t27", "W\t0", "withdrawn"),
    (b"W\t28", "W\t0", "withdrawn"),
    (b"W\t29", "W\t0", "withdrawn"),
    (b"W\t30", "W\t0", "withdrawn"),
    // ---- a box discarded on equal: the nine are parted by y, slot 0 holds 1 to 4, slot 1 holds 5, 6, 9, 7, 8 with the box x 5 to 7, y 100 to 200
    (b"E\t1\t10\t0", "E\t0", "1"),
    (b"E\t2\t30\t0", "E\t0", "2"),
    (b"E\t3\t31\t0", "E\t0", "3"),
    (b"E\t4\t32\t0", "E\t0", "4"),
    (b"E\t5\t5\t100", "E\t0", "5"),
    (b"E\t6\t7\t100", "E\t0", "6"),
    (b"E\t7\t5\t200", "E\t0", "7"),
    (b"E\t8\t7\t200", "E\t0", "8"),
    (b"E\t9\t6\t150", "E\t0", "9: the leaf is split"),
    (b"Q\t0\t0\t1", "Q\t0\t1\t1\t2\t1", "1 drops 2 to 4; the corners at x 5 are as near to 1 as to q, those at x 7 nearer: slot 1 is never opened"),
    (b"Q\t0\t0\t2", "Q\t0\t1\t3\t3\t1", "1 alone does not discard the box; 1 and 2 drop 3 and 4, 1 and 5 drop 6 to 9; 2 fails by 1 and 3, 5 by 1 and 6"),
    (b"Q\t-1\t0\t1", "Q\t0\t1\t1\t2\t1", "q a step back: all four corners are nearer to 1"),
    (b"Q\t1\t0\t1", "Q\t0\t1\t2\t3\t1", "q a step on: slot 1 is opened; 5 (10,016 from q, 10,025 from 1) is a candidate and fails by 6"),
    (b"W\t5", "W\t0", "withdrawn"),
    (b"W\t1", "W\t0", "withdrawn"),
    (b"W\t9", "W\t0", "withdrawn"),
    (b"W\t2", "W\t0", "withdrawn"),
    (b"W\t8", "W\t0", "withdrawn"),
    (b"W\t3", "W\t0", "withdrawn"),
    (b"W\t7", "W\t0", "withdrawn"),
    (b"W\t4", "W\t0", "withdrawn"),
    (b"W\t6", "W\t0", "the last point"),
    // ---- document 01's nine points: slots 0 and 1 hold 1 to 4 and 5 to 9, slot 2 is the root
    (b"E\t1\t0\t0", "E\t0", "1"),
    (b"E\t2\t10\t0", "E\t0", "2"),
    (b"E\t3\t20\t0", "E\t0", "3"),
    (b"E\t4\t30\t0", "E\t0", "4"),
    (b"E\t5\t40\t0", "E\t0", "5"),
    (b"E\t6\t50\t0", "E\t0", "6"),
    (b"E\t7\t60\t0", "E\t0", "7"),
    (b"E\t8\t70\t0", "E\t0", "8"),
    (b"Q\t-10\t0\t1", "Q\t0\t0\t1\t1", "eight in one leaf: 1 drops all others; 2 is as near to it as q is (100), so it fails the final test"),
    (b"E\t9\t80\t0", "E\t0", "9: the leaf is split"),
    (b"Q\t-10\t0\t1", "Q\t0\t0\t1\t2", "document 01's example as 02 amends it: no answer, m 1, o 2; slot 1 is never opened"),
    (b"Q\t-9\t0\t1", "Q\t0\t1\t1\t2\t1", "q a step on: 81, where 2 is at 100"),
    (b"Q\t-10\t0\t2", "Q\t0\t1\t2\t2\t1", "1 and 2 drop 3 and 4 and discard slot 1; 2 has 1 and 3 as near (100, from q 400)"),
    (b"Q\t90\t0\t1", "Q\t0\t0\t1\t2", "from the other end: slot 0 is never opened; 9 has 8 as near as q"),
    (b"Q\t90\t0\t2", "Q\t0\t1\t2\t2\t9", "9 and 8 drop 7, 6 and 5 and discard slot 0; 8 has 9 and 7 as near"),
    // ---- cards of the nine: 4 at 30 is the last of slot 0, 5 at 40 the first of slot 1, and each has neighbours as far to both sides
    (b"K\t5\t1", "K\t0\t1\t4", "6, in its own leaf, and 4, in the other, are at 100: the lower number, though its box is no nearer than 6"),
    (b"K\t5\t2", "K\t0\t2\t4\t6", "both"),
    (b"K\t5\t3", "K\t0\t3\t4\t6\t3", "3 and 7 at 400: 3"),
    (b"K\t6\t3", "K\t0\t3\t5\t7\t4", "5 and 7 at 100; 8, in its own leaf, and 4, in the other, at 400: 4"),
    (b"K\t4\t1", "K\t0\t1\t3", "3, in its own leaf, and 5, in the other, are at 100"),
    (b"K\t4\t4", "K\t0\t4\t3\t5\t2\t6", "at 100, 100, 400, 400"),
    (b"K\t9\t3", "K\t0\t3\t8\t7\t6", "from the end: nearest first, not rising"),
    (b"K\t1\t5", "K\t0\t5\t2\t3\t4\t5\t6", "out of its own leaf, which has but three others"),
    (b"K\t5\t16", "K\t0\t8\t4\t6\t3\t7\t2\t8\t1\t9", "all others"),
    (b"K\t5\t8", "K\t0\t8\t4\t6\t3\t7\t2\t8\t1\t9", "as many as there are"),
    (b"K\t5\t7", "K\t0\t7\t4\t6\t3\t7\t2\t8\t1", "one fewer"),
    (b"Q\t90\t0\t2", "Q\t0\t1\t2\t2\t9", "a card changes nothing"),
];

/// The rest: 500 points and one more, some queries and cards among them, and a last line without its line feed. Each with what it gives back.
fn many() -> Vec<(String, u8)> {
    let mut r = Random(7);
    let mut out = Vec::new();
    for number in 10..=500 {
        let (x, y) = r.place(u64::from(number % 2 == 0) * 4);
        out.push((format!("E\t{number}\t{x}\t{y}"), 0));
    }
    out.push(("E\t501\t0\t0".into(), 7));
    out.push(("E\t9999\t1000000\t-1000000".into(), 7));
    out.push(("E\t500\t0\t0".into(), 6));
    out.push(("E\t501\t0\t1000001".into(), 4));
    out.push(("E\t10000\t0\t0".into(), 3));
    for k in [0, 1, 2, 15, 16, 17] {
        for (x, y) in [(0, 0), (40, 0), (1_000_000, 1_000_000), (-123_456, 654_321), (1_000_001, 0)] {
            let given = if x > 1_000_000 { 4 } else if k == 0 || k == 17 { 5 } else { 0 };
            out.push((format!("Q\t{x}\t{y}\t{k}"), given));
        }
    }
    for k in [0, 1, 2, 15, 16, 17] {
        for number in [1, 9, 10, 250, 499, 500, 501, 9_999, 10_000] {
            let given = if number > 9_999 { 3 } else if k == 0 || k == 17 { 5 } else if number > 500 { 8 } else { 0 };
            out.push((format!("K\t{number}\t{k}"), given));
        }
    }
    out.push(("W\t500".into(), 0));
    out.push(("W\t500".into(), 8));
    out.push(("K\t500\t1".into(), 8));
    out.push(("E\t501\t3\t3".into(), 0));
    out.push(("E\t500\t3\t3".into(), 7));
    out.push(("E\t501\t3\t3".into(), 6));
    for number in (3..=498).step_by(3) {
        out.push((format!("W\t{number}"), 0));
    }
    out.push(("W\t300".into(), 8));
    for number in 290..=310 {
        out.push((format!("K\t{number}\t{}", number % 16 + 1), if number % 3 == 0 { 8 } else { 0 }));
    }
    out.push(("Q\t3\t3\t1".into(), 0));
    out.push(("Q\t3\t3\t16".into(), 0));
    out
}

pub fn input() -> Vec<u8> {
    let mut lines: Vec<Vec<u8>> = BY_HAND.iter().map(|l| l.0.to_vec()).collect();
    lines.extend(many().into_iter().map(|l| l.0.into_bytes()));
    lines.join(&b'\n')
}

pub fn expected() -> Vec<u8> {
    let out = run(&input(), By::Walk);
    let said = String::from_utf8(out.clone()).expect("text");
    let mut lines = said.lines().enumerate();
    for (line, want, why) in BY_HAND {
        let (i, said) = lines.next().expect("a line of output for each");
        assert_eq!(said, format!("{}\t{want}", i + 1), "line {}, {:?}: {why}", i + 1, String::from_utf8_lossy(line));
    }
    for (line, given) in many() {
        let (i, said) = lines.next().expect("a line of output for each");
        let fields: Vec<&str> = said.split('\t').collect();
        let letter = &line[..1];
        assert_eq!(fields[..3], [(i + 1).to_string().as_str(), letter, given.to_string().as_str()], "line {}, {line}", i + 1);
    }
    assert!(lines.next().is_none());
    out
}
