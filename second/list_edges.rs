//! The edge cases of the station lists. What each gives was written by hand from document 02 §5 and the grammar of RFC 4180, before any program ran it,
//! with the reason beside it; `agreed` then asks that the second implementation says the same, and `compare lists` that the built program does.

use crate::list;
use crate::sheets::LONGEST;

pub struct Case {
    pub file: Vec<u8>,
    pub want: list::Streams,
    pub why: String,
}

/// A record, what it gives (a line of the sheet, or the number that it is refused with), and why. Each has an even number of quote marks and no CR LF
/// outside of them, so it ends where it should: `cases` tries it as the last record, before another, and all of them in one file.
type Record = (&'static [u8], &'static str, &'static str);

const RECORDS: &[Record] = &[
    // ---- plain and quoted fields
    (b"1,2,3,a", "E\t1\t2\t3", "four plain fields, the name dropped"),
    (b"\"1\",\"2\",\"3\",\"x\"", "E\t1\t2\t3", "four quoted fields, unquoted on the sheet"),
    (b"\"1\",2,3,a", "E\t1\t2\t3", "a quoted number"),
    (b"1,\"-2\",3,a", "E\t1\t-2\t3", "a quoted x"),
    (b"1,2,\"-3\",a", "E\t1\t2\t-3", "a quoted y"),
    (b"1,2,3,", "E\t1\t2\t3", "an empty name is a field of no text"),
    (b"1,2,3,\"\"", "E\t1\t2\t3", "an empty name in quotes"),
    (b"1,2,3, ", "E\t1\t2\t3", "a name that is a space"),
    (b"1,2,3,4", "E\t1\t2\t3", "a name that is a number"),
    (b"1,2,3,-0", "E\t1\t2\t3", "a name that would be no number: the name is free"),
    (b"1,2,3,a b (c) #1 'd'", "E\t1\t2\t3", "marks that mean nothing here"),
    (b"1,2,3,\"a,b\"", "E\t1\t2\t3", "a quoted comma parts no fields"),
    (b"1,2,3,\",\"", "E\t1\t2\t3", "a quoted comma alone"),
    (b"1,2,3,\",,,\"", "E\t1\t2\t3", "three"),
    (b"1,2,3,\"a\"\"b\"", "E\t1\t2\t3", "two quote marks in quotes are one"),
    (b"1,2,3,\"\"\"\"", "E\t1\t2\t3", "the name is one quote mark"),
    (b"1,2,3,\"\"\"\"\"\"", "E\t1\t2\t3", "the name is two quote marks"),
    (b"1,2,3,\"\"\"a\"\"\"", "E\t1\t2\t3", "quote marks at both ends of a name"),
    (b"1,2,3,\"a\"\",b\"", "E\t1\t2\t3", "a doubled quote mark before a comma does not close the field"),
    (b"1,2,3,\"a\\\"", "E\t1\t2\t3", "a backslash escapes nothing: it is the name's last letter"),
    (b"1,2,3,\"a\r\nb\"", "E\t1\t2\t3", "a quoted line end"),
    (b"1,2,3,\"\r\n\"", "E\t1\t2\t3", "a quoted line end alone"),
    (b"1,2,3,\"a\r\n4,5,6,b\r\n\"", "E\t1\t2\t3", "what looks like a record is a name"),
    (b"1,2,3,\"a\"\"\r\n4,5,6,b\"", "E\t1\t2\t3", "three quote marks before the CR LF: it is the name's"),
    (b"1,2,3,\"a\rb\"", "E\t1\t2\t3", "a quoted CR alone"),
    (b"1,2,3,\"a\nb\"", "E\t1\t2\t3", "a quoted LF alone"),
    (b"1,2,3,\"\n\r\r\"", "E\t1\t2\t3", "any of them in quotes"),
    // ---- quote marks where they may not be
    (b"\"1\"\"\",2,3,x", "11", "the number says 1 and a quote mark"),
    (b"\"\"\"1\",2,3,x", "11", "the number says a quote mark and 1"),
    (b"\"1\"\"2\",3,4,x", "11", "a doubled quote mark in the number"),
    (b"1,\"2\"\"\",3,x", "11", "in x"),
    (b"1,2,\"3\"\"\",x", "11", "in y"),
    (b"1,2,3,a\"b\"", "11", "quote marks in a plain field"),
    (b"1,2,3,a\"\"b", "11", "doubled quote marks in a plain field"),
    (b"1,2,3,a\"\"", "11", "at its end"),
    (b"1,2,3, \"a\"", "11", "a space before the quote mark: a plain field"),
    (b"1,2,3,\"a\" ", "11", "a space behind the closing quote mark"),
    (b"1,2,3,\"a\"b", "11", "text behind the closing quote mark"),
    (b"1,2,3,\"a\"b\"c\"", "11", "text and another quoted stretch"),
    (b"1,2,3,\"\"a", "11", "text behind an empty quoted field"),
    (b"1,2,3,\"a\"\r", "11", "CR CR LF behind the closing quote mark: the first CR is the record's"),
    (b"1,2,3,\"a\"\n", "11", "an LF behind the closing quote mark"),
    (b"1,2,3,\"a\"\0", "11", "a NUL behind the closing quote mark"),
    (b"\"1\"2,3,4,a", "11", "a digit behind the closing quote mark"),
    (b"\"1\" ,2,3,a", "11", "a space before the comma"),
    (b"\"1\"\r,2,3,a", "11", "a CR before the comma"),
    (b"1\"\",2,3,a", "11", "quote marks behind a plain number"),
    (b"\"\"1,2,3,a", "11", "an empty quoted field, and a digit behind it"),
    (b"1,2,3,\\\"a\\\"", "11", "quote marks behind backslashes are quote marks in a plain field"),
    (b"1,2,3,a\"b\r\nc\"d", "11", "one quote mark before the CR LF, so it ends nothing; and then the grammar is broken"),
    (b"1,2,3,a\"\r\n4,5,6,\"b", "11", "the same: one record, not two"),
    // ---- fields
    (b"", "11", "a record of no bytes has one field"),
    (b"\"\"", "11", "one empty quoted field"),
    (b" ", "11", "one field"),
    (b"1", "11", "one field"),
    (b"1,2", "11", "two fields"),
    (b"1,2,3", "11", "three fields: the name is missing"),
    (b"1,2,\"3,a\"", "11", "three fields: the comma is quoted"),
    (b"\"1,2,3,a\"", "11", "one field"),
    (b"\"1\"\",2,3,a\"", "11", "one field, with a quote mark"),
    (b"1,2,3,a,b", "11", "five fields"),
    (b"1,2,3,a,", "11", "five fields, the last one empty"),
    (b"1,2,3,,", "11", "five fields, two of them empty"),
    (b"1,2,3,\"a\",\"b\"", "11", "five quoted fields"),
    (b"1,2,3,'a,b'", "11", "another mark quotes nothing: five fields"),
    (b"1,2,3,a\\,b", "11", "a backslash escapes no comma: five fields"),
    (b",1,2,3,a", "11", "five fields, the first one empty"),
    (b",,,", "11", "four empty fields: no numbers"),
    (b",", "11", "two empty fields"),
    (b",,,,,,,,,,,,,,,,", "11", "many"),
    (b"1;2;3;a", "11", "a semicolon parts no fields"),
    (b"1\t2\t3\ta", "11", "nor does a tab, and it is no text"),
    (b"E,1,2,3", "11", "a line of the sheet with commas: E is no number"),
    (b"number,x,y,name", "11", "a header where a record stands is a record"),
    (b"#1,2,3,a", "11", "there are no comments"),
    (b"a,1,2,3", "11", "the name first"),
    // ---- bytes
    (b"1,2,3,~", "E\t1\t2\t3", "%x7E is the last of TEXTDATA"),
    (b"1,2,3,a\x7f", "11", "%x7F is not"),
    (b"1,2,3,\"a\x7f\"", "11", "in quotes neither"),
    (b"1,2,3,a\x1f", "11", "%x1F comes before TEXTDATA"),
    (b"1,2,3,\"a\x1f\"", "11", "in quotes too"),
    (b"1,2,3,a\x80", "11", "the first byte with the high bit"),
    (b"1,2,3,\"a\x80\"", "11", "in quotes"),
    (b"1,2,3,\xff", "11", "the last byte"),
    (b"1,2,3,\"\xff\"", "11", "in quotes"),
    (b"1,2,3,Malm\xc3\xb6", "11", "a letter in UTF-8"),
    (b"1,2,3,\"Malm\xc3\xb6\"", "11", "in quotes"),
    (b"1,2,3,Malm\xf6", "11", "the same letter in Latin-1"),
    (b"1,2,3,a\tb", "11", "a tab"),
    (b"1,2,3,\"a\tb\"", "11", "a quoted tab: the grammar has none"),
    (b"1,2,3,\0", "11", "a NUL"),
    (b"1,2,3,\"\0\"", "11", "a quoted NUL"),
    (b"1,2,3,a\x0b", "11", "a vertical tab"),
    (b"1,2,3,\"a\x0c\"", "11", "a quoted form feed"),
    (b"\xef\xbb\xbf1,2,3,a", "11", "a byte order mark"),
    (b"\xb1,2,3,a", "11", "the digit 1 with the high bit"),
    (b"1\xac2,3,a", "11", "a comma with the high bit"),
    (b"1,2,3,\xa2a\xa2", "11", "quote marks with the high bit"),
    (b"\x1a", "11", "the end mark of an old file"),
    // ---- CR and LF alone, outside quotes
    (b"1,2,3,a\r", "11", "CR CR LF: the record ends at the second CR, and the first is in it"),
    (b"1,2,3,a\n", "11", "LF CR LF: the LF is in the record"),
    (b"1,2,3,a\r\r", "11", "CR CR CR LF"),
    (b"1,2,3,a\n\r", "11", "LF CR CR LF"),
    (b"1,2,3,a\n4,5,6,b", "11", "an LF alone ends no record"),
    (b"1,2,3,a\r4,5,6,b", "11", "nor does a CR alone"),
    (b"1,2,3,a\n\r4,5,6,b", "11", "nor do both the other way round"),
    (b"\n1,2,3,a", "11", "an LF before the number"),
    (b"\r1,2,3,a", "11", "a CR before the number"),
    (b"1,2\n,3,a", "11", "an LF behind x"),
    (b"\r", "11", "a CR alone"),
    (b"\n", "11", "an LF alone"),
    // ---- the form of a number
    (b"1,0,0,a", "E\t1\t0\t0", "0 itself"),
    (b"\"1\r\n\",2,3,a", "11", "a line end in the number"),
    (b"\"\r\n1\",2,3,a", "11", "before it"),
    (b"1,\"2\n\",3,a", "11", "an LF in x"),
    (b"\"1,2\",3,4,a", "11", "a comma in the number"),
    (b",2,3,a", "11", "an empty number"),
    (b"\"\",2,3,a", "11", "an empty number in quotes"),
    (b"1,,3,a", "11", "an empty x"),
    (b"1,2,,a", "11", "an empty y"),
    (b"1,\"\",\"\",a", "11", "x and y empty in quotes"),
    (b" 1,2,3,a", "11", "a space before the number: spaces belong to a field"),
    (b"1 ,2,3,a", "11", "behind it"),
    (b"1, 2,3,a", "11", "before x"),
    (b"1,2,3 ,a", "11", "behind y"),
    (b"\" 1\",2,3,a", "11", "a quoted space"),
    (b"01,2,3,a", "11", "a leading zero"),
    (b"\"01\",2,3,a", "11", "in quotes"),
    (b"1,00,3,a", "11", "two zeros"),
    (b"1,-02,3,a", "11", "a leading zero behind a minus"),
    (b"1,-0,3,a", "11", "-0"),
    (b"1,2,\"-0\",a", "11", "-0 in quotes"),
    (b"-0,2,3,a", "11", "-0 as number: 11, not 3"),
    (b"+1,2,3,a", "11", "a plus sign"),
    (b"1,+2,3,a", "11", "in x"),
    (b"1,--2,3,a", "11", "two minuses"),
    (b"1,-,3,a", "11", "a minus alone"),
    (b"1,2-,3,a", "11", "a minus behind"),
    (b"1.0,2,3,a", "11", "a point"),
    (b"1,2e1,3,a", "11", "an exponent"),
    (b"0x1,2,3,a", "11", "hexadecimal"),
    (b"1,/,:,a", "11", "the bytes beside the digits"),
    (b"10000000,2,3,a", "11", "eight digits: no number"),
    (b"1,12345678,3,a", "11", "eight digits in x: 11, not 4"),
    (b"1,2,-12345678,a", "11", "a minus and eight digits"),
    (b"1,2,00000000,a", "11", "eight zeros"),
    (b"18446744073709551617,2,3,a", "11", "would be 1 in 64 bits"),
    (b"4294967297,2,3,a", "11", "would be 1 in 32 bits"),
    // ---- 3, then 4
    (b"9999,2,3,a", "E\t9999\t2\t3", "the highest number"),
    (b"0,2,3,a", "3", "number 0"),
    (b"\"0\",2,3,a", "3", "in quotes"),
    (b"10000,2,3,a", "3", "number 10,000"),
    (b"-1,2,3,a", "3", "number -1"),
    (b"9999999,2,3,a", "3", "seven digits are a number"),
    (b"-9999999,2,3,a", "3", "with a minus too"),
    (b"1,1000000,1000000,a", "E\t1\t1000000\t1000000", "the corner of the grid"),
    (b"1,-1000000,-1000000,a", "E\t1\t-1000000\t-1000000", "the other one"),
    (b"1,1000001,0,a", "4", "x a step beyond"),
    (b"1,0,1000001,a", "4", "y a step beyond"),
    (b"1,-1000001,0,a", "4", "x a step before"),
    (b"1,0,-1000001,a", "4", "y a step before"),
    (b"1,\"1000001\",0,a", "4", "in quotes"),
    (b"1,9999999,-9999999,a", "4", "seven digits are a number"),
    (b"0,1000001,0,a", "3", "3 comes before 4"),
    (b"10000,0,-1000001,a", "3", "3 comes before 4"),
    // ---- 11 before both
    (b"0,x,0,a", "11", "x is no number: 11 comes before 3"),
    (b"1,1000001,-0,a", "11", "y is no number: 11 comes before 4"),
    (b"0,1000001,0", "11", "three fields"),
    (b"0,1000001,0,a,b", "11", "five fields"),
    (b"0,0,0,a\"b\"", "11", "the name breaks the grammar: 11 comes before 3"),
    (b"1,1000001,0,a\tb", "11", "the name breaks the grammar: 11 comes before 4"),
    (b"0,1000001,0,\"a\"b", "11", "before both"),
];

/// A file, what stands on the output, what on the error stream, and why.
type File = (&'static [u8], &'static str, &'static str, &'static str);

const FILES: &[File] = &[
    // ---- the header, and files with nothing but it
    (b"", "", "", "an empty file gives nothing"),
    (b"number,x,y,name", "", "", "the header alone"),
    (b"number,x,y,name\r\n", "", "", "a CR LF at the file's end opens no record"),
    (b"\r\n", "", "", "a header of no bytes, and no record behind it"),
    (b"\r", "", "", "a header"),
    (b"\n", "", "", "a header"),
    (b"\0", "", "", "a header"),
    (b"1,2,3,a", "", "", "the first record is a header, whatever it says"),
    (b"0,0,0,a\r\n", "", "", "also if a record like it would be refused"),
    (b"1,2,3,a\r\n4,5,6,b", "E\t4\t5\t6\n", "", "also if others follow"),
    (b"\r\n1,2,3,a\r\n", "E\t1\t2\t3\n", "", "a header of no bytes"),
    (b"h\r\n1,2,3,a\r\n", "E\t1\t2\t3\n", "", "a header of one field"),
    (b",,,,,,,,\r\n1,2,3,a\r\n", "E\t1\t2\t3\n", "", "a header of nine"),
    (b"\xef\xbb\xbfnumber,x,y,name\r\n1,2,3,a\r\n", "E\t1\t2\t3\n", "", "a byte order mark in the header is not checked"),
    (b"\xff\0\t\x7f\r\n1,2,3,a\r\n", "E\t1\t2\t3\n", "", "any bytes in the header"),
    (b"a\"b\"c\r\n1,2,3,a\r\n", "E\t1\t2\t3\n", "", "quote marks in a plain field of the header"),
    (b"\"h\"i\r\n1,2,3,a\r\n", "E\t1\t2\t3\n", "", "text behind a closing quote mark of the header"),
    (b"\"h\r\ni\"\r\n0,0,0,a\r\n", "", "1\t3\n", "a quoted line end in the header: the record behind it is 1"),
    (b"h\"i\r\nj\"k\r\n0,0,0,a\r\n", "", "1\t3\n", "the header breaks the grammar, but its quote marks count"),
    (b"h\n0,0,0,a\n1,2,3,a\n", "", "", "LF alone ends no record: all is header"),
    (b"h\r0,0,0,a\r1,2,3,a\r", "", "", "nor does CR alone"),
    (b"h\n\r\n1,2,3,a\r\n", "E\t1\t2\t3\n", "", "LF CR LF: the header has an LF"),
    (b"h\r\r\n1,2,3,a\r\n", "E\t1\t2\t3\n", "", "CR CR LF: the header has a CR"),
    (b"\"", "", "", "a quote mark that never closes, in the header"),
    (b"\"\r\n1,2,3,a\r\n4,5,6,b\r\n", "", "", "it takes the rest of the file into the header"),
    (b"a\"b\r\n1,2,3,a\r\n", "", "", "in a plain field of the header too: the marks alone count"),
    (b"\"\"\"\r\n1,2,3,a\r\n", "", "", "three are an odd number"),
    (b"\"\r\n1,2,3,\"a\r\n4,5,6,b\r\n", "E\t4\t5\t6\n", "", "until the next one: the header is the first two lines"),
    (b"\"\r\n1,2,3,\"a\"\r\n4,5,6,b\r\n", "", "", "but two there leave three"),
    // ---- the end of the file
    (b"h\r\n1,2,3,a", "E\t1\t2\t3\n", "", "the last record may lack its CR LF"),
    (b"h\r\n1,2,3,", "E\t1\t2\t3\n", "", "and end with an empty name"),
    (b"h\r\n1,2,3,\"a\"", "E\t1\t2\t3\n", "", "or with a quoted one"),
    (b"h\r\n1,2,3,\"a\r\n\"", "E\t1\t2\t3\n", "", "or with a quoted line end in it"),
    (b"h\r\n1,2,3,\"a\r\n\"\r\n", "E\t1\t2\t3\n", "", "the same with its CR LF"),
    (b"h\r\n1,2,3", "", "1\t11\n", "three fields at the end of the file"),
    (b"h\r\n1,2,3,a\r", "", "1\t11\n", "half a line end is a byte of the record"),
    (b"h\r\n1,2,3,a\n", "", "1\t11\n", "and so is the other half"),
    (b"h\r\n1,2,3,\"a\"\r", "", "1\t11\n", "behind a quoted name"),
    (b"h\r\n\r", "", "1\t11\n", "a record of one CR"),
    (b"h\r\n\n", "", "1\t11\n", "a record of one LF"),
    (b"h\r\n\0", "", "1\t11\n", "a record of one NUL"),
    (b"h\r\n\r\n", "", "1\t11\n", "CR LF CR LF at the end: the first ends the header, the second an empty record"),
    (b"\r\n\r\n", "", "1\t11\n", "behind an empty header too"),
    (b"h\r\n\r\n\r\n", "", "1\t11\n2\t11\n", "two empty records"),
    (b"h\r\n1,2,3,a\r\n\r\n", "E\t1\t2\t3\n", "2\t11\n", "an empty record behind a sound one"),
    (b"h\r\n\r\n1,2,3,a", "E\t1\t2\t3\n", "1\t11\n", "and before it"),
    (b"h\r\n1,2,3,a\r\n \r\n4,5,6,b", "E\t1\t2\t3\nE\t4\t5\t6\n", "2\t11\n", "a space is a record"),
    (b"h\r\n1,2,3,a\r\n\x1a", "E\t1\t2\t3\n", "2\t11\n", "the end mark of an old file is a record"),
    (b"h\r\n1,2,3,a\0\r\n4,5,6,b", "E\t4\t5\t6\n", "1\t11\n", "a NUL ends no file"),
    (b"h\r\n1,2,3,a\x1a\r\n4,5,6,b", "E\t4\t5\t6\n", "1\t11\n", "nor does an end mark"),
    // ---- quote marks that never close
    (b"h\r\n\"", "", "1\t11\n", "the quotes never close"),
    (b"h\r\n\"\r\n", "", "1\t11\n", "and the CR LF is inside"),
    (b"h\r\n1,2,3,\"a", "", "1\t11\n", "behind three sound fields"),
    (b"h\r\n1,2,3,a\"b", "", "1\t11\n", "one quote mark in a plain field"),
    (b"h\r\n1,2,3,a\"", "", "1\t11\n", "at its end"),
    (b"h\r\n1,2,3,\"a\r\n4,5,6,b\r\n7,8,9,c\r\n", "", "1\t11\n", "the rest of the file is one record"),
    (b"h\r\n1,2,3,a\"b\r\n4,5,6,b\r\n7,8,9,c\r\n", "", "1\t11\n", "also where the mark stands in a plain field"),
    (b"h\r\n1,2,3,a\r\n\"4,5,6,b\r\n7,8,9,c", "E\t1\t2\t3\n", "2\t11\n", "but not what came before"),
    (b"h\r\n1,2,3,\"\"\"\r\n4,5,6,b\r\n", "", "1\t11\n", "three: opened, and one doubled"),
    (b"h\r\n1,2,3,\"a\"\"\r\n4,5,6,b\r\n", "", "1\t11\n", "a doubled one closes nothing"),
    (b"h\r\n1,2,3,\"a\"\"", "", "1\t11\n", "nor at the end of the file"),
    (b"h\r\n1,2,3,\"a\\\"b\"\r\n4,5,6,b\r\n", "", "1\t11\n", "a backslash escapes nothing: three quote marks"),
    (b"h\r\n1,2,3,\"a\r\n4,5,6,\"b\r\n7,8,9,c\r\n", "E\t7\t8\t9\n", "1\t11\n", "the next quote mark closes it, with b behind"),
    (b"h\r\n1,2,3,\"a\r\n4,5,6,\"\r\n7,8,9,c\r\n", "E\t1\t2\t3\nE\t7\t8\t9\n", "", "with nothing behind it all is one sound name"),
    (b"h\r\n1,2,3,a\"\r\n4,5,6,\"b\r\n7,8,9,c\r\n", "E\t7\t8\t9\n", "1\t11\n", "in plain fields: one record up to the even number"),
    (b"h\r\n1,2,3,\"a\r\n\"4,5,6,b\r\n7,8,9,\"c\"\r\n", "E\t7\t8\t9\n", "1\t11\n", "the count begins anew with each record"),
    (b"h\r\n1,2,3,\"\xff\r\n4,5,6,b\"\r\n7,8,9,c\r\n", "E\t7\t8\t9\n", "1\t11\n", "a byte that breaks the grammar does not end the quotes"),
    (b"h\r\n\xff\"\r\n4,5,6,b\"\r\n7,8,9,c\r\n", "E\t7\t8\t9\n", "1\t11\n", "nor keeps them from beginning"),
    (b"h\r\n1,2,3,\"a\"\"\r\n\"\r\n4,5,6,b\r\n", "E\t1\t2\t3\nE\t4\t5\t6\n", "", "a doubled mark just before a quoted line end"),
    (b"h\r\n1,2,3,\"a\r\n\"\"\"\r\n4,5,6,b\r\n", "E\t1\t2\t3\nE\t4\t5\t6\n", "", "and just behind it"),
    // ---- many records: order, numbers, who comes through
    (b"h\r\nx\r\n1,2,3,a\r\n0,0,0,b\r\n4,5,6,c\r\n7,1000001,0,d\r\n8,9,9,e\r\n", "E\t1\t2\t3\nE\t4\t5\t6\nE\t8\t9\t9\n", "1\t11\n3\t3\n5\t4\n",
     "a faulty record is told by its number, the others come through"),
    (b"h\r\n9,0,0,a\r\n1,0,0,b\r\n5,0,0,c\r\n", "E\t9\t0\t0\nE\t1\t0\t0\nE\t5\t0\t0\n", "", "file order, not by number"),
    (b"h\r\n5,0,0,a\r\n5,0,0,a\r\n5,1,1,b\r\n", "E\t5\t0\t0\nE\t5\t0\t0\nE\t5\t1\t1\n", "", "a number may come more than once: the sheet will refuse it"),
    (b"h\r\n1,2,3,\"a\r\nb\r\nc\"\r\nx\r\n", "E\t1\t2\t3\n", "2\t11\n", "records are numbered, not lines"),
    (b"h\r\nx\r\n\"\r\n\r\n\"\r\n0,0,0,\"a\r\n\"\r\n1,1000001,0,a\r\n", "", "1\t11\n2\t11\n3\t3\n4\t4\n", "faulty ones with quoted line ends too"),
    (b"h\r\n1,2,3,a\r\r\n4,5,6,b\r\n", "E\t4\t5\t6\n", "1\t11\n", "CR CR LF ends the record"),
    (b"h\r\n1,2,3,a\n\r\n4,5,6,b\r\n", "E\t4\t5\t6\n", "1\t11\n", "LF CR LF ends it"),
    (b"h\r\n1,2,3,a\n4,5,6,b\r\n7,8,9,c\r\n", "E\t7\t8\t9\n", "1\t11\n", "LF alone does not: one report for both"),
    (b"h\r\n1,2,3,a\r4,5,6,b\r\n7,8,9,c\r\n", "E\t7\t8\t9\n", "1\t11\n", "nor does CR alone"),
    (b"h\r\n1,0,0,\r\n2,0,0,\r\n3,0,0,\r\n4,0,0,\r\n5,0,0,\r\n6,0,0,\r\n7,0,0,\r\n8,0,0,\r\n9\r\n0,0,0,\r\n11\r\n12,0,0,\r\n",
     "E\t1\t0\t0\nE\t2\t0\t0\nE\t3\t0\t0\nE\t4\t0\t0\nE\t5\t0\t0\nE\t6\t0\t0\nE\t7\t0\t0\nE\t8\t0\t0\nE\t12\t0\t0\n", "9\t11\n10\t3\n11\t11\n",
     "records 9, 10 and 11"),
];

const HEADER: &[u8] = b"number,x,y,name\r\n";

/// Every byte of TEXTDATA, written out.
const TEXT: &[u8] = b" !#$%&'()*+-./0123456789:;<=>?@ABCDEFGHIJKLMNOPQRSTUVWXYZ[\\]^_`abcdefghijklmnopqrstuvwxyz{|}~";

fn case(file: Vec<u8>, lines: impl Into<Vec<u8>>, reports: impl Into<Vec<u8>>, why: impl Into<String>) -> Case {
    Case { file, want: list::Streams { lines: lines.into(), reports: reports.into() }, why: why.into() }
}

/// What stands on the two streams for a record of that number.
fn told(i: usize, given: &str) -> (String, String) {
    if given.starts_with('E') {
        (format!("{given}\n"), String::new())
    } else {
        (String::new(), format!("{i}\t{given}\n"))
    }
}

/// Each record as the last one without its CR LF, and with another behind it. The empty one is none at the end of a file.
fn records() -> Vec<Case> {
    let mut all = Vec::new();
    for (record, given, why) in RECORDS {
        let (line, report) = told(1, given);
        if !record.is_empty() {
            all.push(case([HEADER, record].concat(), line.clone(), report.clone(), format!("{why}; the last record")));
        }
        let file = [HEADER, record, b"\r\n77,-7,7,behind\r\n"].concat();
        all.push(case(file, line + "E\t77\t-7\t7\n", report, format!("{why}; before another")));
    }
    all.push(in_one_file(RECORDS.iter().map(|&(record, given, _)| (record.to_vec(), given)).collect(), "all records by hand in one file"));
    all
}

fn in_one_file(records: Vec<(Vec<u8>, &str)>, why: &str) -> Case {
    let (mut file, mut lines, mut reports) = (HEADER.to_vec(), String::new(), String::new());
    for (i, (record, given)) in records.into_iter().enumerate() {
        let (line, report) = told(i + 1, given);
        file.extend(record);
        file.extend(b"\r\n");
        lines += &line;
        reports += &report;
    }
    case(file, lines, reports, why)
}

/// Every byte at each of five places of a record. A quote mark alone would take the next records: it is among the cases above.
fn every_byte() -> Vec<Case> {
    let bytes = || (0..=255).filter(|&b| b != b'"');
    let at = |before: &[u8], behind: &[u8], given: &dyn Fn(u8) -> &'static str, why: &str| {
        in_one_file(bytes().map(|b| ([before, &[b], behind].concat(), given(b))).collect(), why)
    };
    vec![
        at(b"1,2,3,", b"", &|b| if TEXT.contains(&b) { "E\t1\t2\t3" } else { "11" }, "every byte as a plain name"),
        at(b"1,2,3,\"", b"\"", &|b| if TEXT.contains(&b) || b",\r\n".contains(&b) { "E\t1\t2\t3" } else { "11" }, "every byte as a quoted name"),
        at(b"\"1\"", b"2,3,a", &|b| if b == b',' { "E\t1\t2\t3" } else { "11" }, "every byte behind a closing quote mark"),
        at(b"1,2,3,a", b"\"\"", &|_| "11", "every byte, and an empty pair of quote marks behind it: never sound"),
        at(b"1,2,3", b"a", &|b| if b == b',' { "E\t1\t2\t3" } else { "11" }, "every byte between y and the name"),
    ]
}

/// A header and one station, its name so long that the file has so many bytes; `end` is the last of them.
fn long_name(length: usize, end: &[u8]) -> Vec<u8> {
    let front = [HEADER, b"1,2,3,"].concat();
    let name = vec![b'a'; length - front.len() - end.len()];
    [front, name, end.to_vec()].concat()
}

/// Lengths around the longest, and files of many records.
fn long() -> Vec<Case> {
    let station = "E\t1\t2\t3\n";
    let over = "0\t12\n";
    let front = |file: &[u8], length: usize| [file, &vec![b' '; length - file.len()]].concat();
    let empty_records: String = (1..32_768).map(|i| format!("{i}\t11\n")).collect();
    let faulty = [99, 100, 101, 999, 1_000, 1_001];
    let many = (1..=1_002).map(|i| if faulty.contains(&i) { (b"0,0,0,".to_vec(), "3") } else { (b"1,2,3,".to_vec(), "E\t1\t2\t3") }).collect();
    vec![
        case(long_name(LONGEST - 1, b""), station, "", "65,535 bytes"),
        case(long_name(LONGEST, b""), station, "", "65,536 bytes are read"),
        case(long_name(LONGEST, b"\r\n"), station, "", "65,536 bytes with the last CR LF"),
        case(long_name(LONGEST, b"\r"), "", "1\t11\n", "65,536 bytes that end in a CR"),
        case(long_name(LONGEST + 1, b""), "", over, "65,537 bytes: 12 alone, and nothing on the output"),
        case(long_name(LONGEST + 1, b"\r\n"), "", over, "a line end counts among the bytes"),
        case(long_name(LONGEST + 1, b"\n"), "", over, "half of it too"),
        case(long_name(LONGEST + 2, b"\r\n"), "", over, "the longest list and its line end"),
        case(long_name(200_000, b"\r\n"), "", over, "far too long"),
        case(front(b"h\r\nx\r\n1,2,3,a\r\n", LONGEST + 1), "", over, "too long: neither the sound record nor the faulty one is told"),
        case(front(b"h\r\nx\r\n1,2,3,a\r\n", LONGEST), station, "1\t11\n3\t11\n", "just not too long: both are, and so are the spaces"),
        case(vec![b'h'; LONGEST], "", "", "a header of 65,536 bytes"),
        case(vec![b'h'; LONGEST + 1], "", over, "a header of one byte more: 12 though the header is not checked"),
        case(vec![0; LONGEST + 1], "", over, "65,537 NULs"),
        case(vec![b'"'; LONGEST], "", "", "65,536 quote marks are a header"),
        case(vec![b'"'; LONGEST + 1], "", over, "65,537 are not"),
        case([HEADER, &vec![b'"'; 30_001]].concat(), "", "1\t11\n", "an odd number of quote marks and nothing else"),
        case([HEADER, b"1,2,3,", &vec![b'"'; 30_000]].concat(), station, "", "an even number is a name of half as many less one"),
        case([HEADER, b"\"", &b"\r\n".repeat(30_000)].concat(), "", "1\t11\n", "30,000 line ends in quotes that never close"),
        case([HEADER, b"1,2,3,\"", &b"\r\n".repeat(30_000), b"\""].concat(), station, "", "and in quotes that do"),
        case([HEADER, &vec![b','; 60_000]].concat(), "", "1\t11\n", "60,001 fields"),
        case(b"\r\n".repeat(LONGEST / 2), "", empty_records, "32,768 line ends: an empty header and 32,767 empty records"),
        case([HEADER, &b"1,2,3,\r\n".repeat(8_000)].concat(), station.repeat(8_000), "", "8,000 stations: the list has no room to run out of"),
        in_one_file(many, "records 99 to 101 and 999 to 1,001"),
    ]
}

pub fn cases() -> Vec<Case> {
    let files = FILES.iter().map(|&(file, lines, reports, why)| case(file.to_vec(), lines, reports, why));
    files.chain(records()).chain(every_byte()).chain(long()).collect()
}

/// Every case gives what it says; how many there are.
pub fn agreed() -> usize {
    let all = cases();
    for Case { file, want, why } in &all {
        assert!(list::read(file) == *want, "{why}: {:?}", String::from_utf8_lossy(&file[..file.len().min(200)]));
    }
    all.len()
}
