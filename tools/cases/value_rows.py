"""Rows of values for `xgolden_value`: times, integers, strings, and why each row is there."""

# Fields of moments.
MOMENTS = [
    ("2049 12 31 23 59 59", "the last second before 2050"),
    ("2050 1 1 0 0 0", "the first second of 2050"),
    ("1949 12 31 23 59 59", "the last second before 1950"),
    ("1950 1 1 0 0 0", "the first second of 1950"),
    ("1949 12 31 0 0 0", "the last day before 1950"),
    ("0 1 1 0 0 0", "the first second of year 0"),
    ("0 2 29 0 0 0", "the leap day of year 0"),
    ("9999 12 31 23 59 59", "the last second of year 9999"),
    ("10000 1 1 0 0 0", "year 10000"),
    ("65535 1 1 0 0 0", "the greatest year of 16 bits"),
    ("2004 2 29 12 0 0", "the leap day of a fourth year"),
    ("2000 2 29 12 0 0", "the leap day of a century's end"),
    ("1900 2 29 12 0 0", "no leap day in 1900"),
    ("1900 2 28 12 0 0", "28 February of 1900"),
    ("2100 2 29 12 0 0", "no leap day in 2100"),
    ("2023 2 29 0 0 0", "no leap day in 2023"),
    ("2004 2 30 0 0 0", "30 February"),
    ("2023 4 31 0 0 0", "31 April"),
    ("2023 4 30 0 0 0", "30 April"),
    ("2023 6 31 0 0 0", "31 June"),
    ("2023 11 31 0 0 0", "31 November"),
    ("2023 8 31 0 0 0", "31 July and August"),
    ("2023 0 1 0 0 0", "month 0"),
    ("2023 13 1 0 0 0", "month 13"),
    ("2023 255 1 0 0 0", "month 255"),
    ("2023 1 0 0 0 0", "day 0"),
    ("2023 1 32 0 0 0", "day 32"),
    ("2023 1 1 24 0 0", "hour 24"),
    ("2023 1 1 23 60 0", "minute 60"),
    ("2016 12 31 23 59 60", "second 60"),
    ("2023 1 1 0 0 255", "second 255"),
]

# Moments as times of certificates, each in the form of its year and as a GeneralizedTime.
MOMENTS_IN_BOTH_FORMS = [
    ("2049 12 31 23 59 59", "the last second before 2050"),
    ("2050 1 1 0 0 0", "the first second of 2050"),
    ("1949 12 31 23 59 59", "the last second before 1950"),
    ("1950 1 1 0 0 0", "the first second of 1950"),
    ("2004 2 29 12 34 56", "a leap day"),
    ("0 1 1 0 0 0", "the first second of year 0"),
    ("9999 12 31 23 59 59", "the last second of year 9999"),
]

# Contents octets of a GeneralizedTime, or of none.
GENERALIZED = [
    (b"20500101000000Z", "the first second of 2050"),
    (b"19491231000000Z", "the last day of 1949"),
    (b"20491231235959Z", "a year that UTCTime has too"),
    (b"00000101000000Z", "the first second of year 0"),
    (b"99991231235959Z", "the last second of year 9999"),
    (b"20040229123456Z", "a leap day"),
    (b"19000229123456Z", "no leap day in 1900"),
    (b"20230431000000Z", "31 April"),
    (b"20230001000000Z", "month 0"),
    (b"20231301000000Z", "month 13"),
    (b"20230101240000Z", "hour 24"),
    (b"20230101236000Z", "minute 60"),
    (b"20161231235960Z", "second 60"),
    (b"", "no octets"),
    (b"Z", "Z alone"),
    (b"20500101000000", "no Z"),
    (b"205001010000000", "a digit for Z"),
    (b"20500101000000z", "a small z"),
    (b"20500101000000+0000", "local time"),
    (b"20500101000000.0Z", "a fraction"),
    (b"205001010000Z", "seconds left out"),
    (b"20500101000000Z\x00", "an octet after Z"),
    (b"2050 101000000Z", "a space for a zero"),
    (b"+0500101000000Z", "a plus sign"),
    (b"2050-101000000Z", "a minus sign"),
    (b"2O500101000000Z", "a letter"),
    (b"/0500101000000Z", "the octet before 0"),
    (b"2050010100000:Z", "the octet after 9"),
]

# Contents octets of a UTCTime, or of none.
UTC = [
    (b"491231235959Z", "the last second of 2049"),
    (b"500101000000Z", "the first second of 1950"),
    (b"990630010203Z", "1999"),
    (b"000101000000Z", "2000"),
    (b"000229000000Z", "the leap day of 2000"),
    (b"590102030405Z", "1959"),
    (b"600102030405Z", "1960"),
    (b"490229000000Z", "no leap day in 2049"),
    (b"230431000000Z", "31 April"),
    (b"230100000000Z", "day 0"),
    (b"230132000000Z", "day 32"),
    (b"230101240000Z", "hour 24"),
    (b"161231235960Z", "second 60"),
    (b"", "no octets"),
    (b"491231235959", "no Z"),
    (b"20491231235959Z", "four digits of the year"),
    (b"491231235959ZZ", "an octet after Z"),
    (b"4912312359Z", "seconds left out"),
    (b"491231235959+0000", "local time"),
    (b"491231235959.5Z", "a fraction"),
    (b"49123123595 Z", "a space for a zero"),
    (b"+91231235959Z", "a plus sign"),
    (b"49123123595\xB9Z", "an octet past 7F"),
    (b"4912312359\xD9\xA9Z", "a digit of another script"),
]

# Fields of dates.
DATES = [
    "2023 6 30 12 34 56",
    "2020 12 20 0 0 0",
    "2004 2 29 23 59 59",
    "1970 1 1 0 0 0",
    "9999 12 31 23 59 59",
    "1000 10 10 10 10 10",
    "999 9 9 9 9 9",
    "99 1 2 3 4 5",
    "1 1 1 0 0 1",
    "0 2 29 0 0 0",
    "1900 2 29 0 0 0",
    "2023 4 31 0 0 0",
    "2023 1 1 24 0 0",
    "2023 1 1 0 60 0",
    "2016 12 31 23 59 60",
    "10000 1 1 0 0 0",
]

# Days.
DAYS = [
    "2023 2 28",
    "2023 2 29",
    "1900 2 29",
    "2000 2 29",
    "2004 2 29",
    "2100 2 29",
    "2023 4 31",
    "2023 0 1",
    "2023 13 1",
    "2023 1 0",
    "2023 1 32",
    "0 1 1",
    "9999 12 31",
    "10000 1 1",
    "1949 1 1",
    "1950 1 1",
    "1999 1 1",
    "2000 1 1",
    "2049 1 1",
    "2050 1 1",
]

# Two dates.
ORDER = [
    ("2020 1 1 0 0 0", "2020 1 1 0 0 0"),
    ("2019 12 31 23 59 59", "2020 1 1 0 0 0"),
    ("2020 2 1 0 0 0", "2020 1 31 23 59 59"),
    ("2020 1 2 0 0 0", "2020 1 1 23 59 59"),
    ("2020 1 1 1 0 0", "2020 1 1 0 59 59"),
    ("2020 1 1 0 1 0", "2020 1 1 0 0 59"),
    ("2020 1 1 0 0 0", "2020 1 1 0 0 1"),
    ("999 12 31 0 0 0", "1000 1 1 0 0 0"),
    ("2049 12 31 0 0 0", "1950 1 1 0 0 0"),
]

# Octets of numbers without a sign.
NUMBERS = [
    ("", "no octets"),
    ("00", "one zero"),
    ("0000", "two zeros"),
    ("000015", "zeros before a number"),
    ("7f", "the last without a zero"),
    ("80", "the first with a zero"),
    ("ff", "the last of one octet"),
    ("0080", "its zero is there"),
    ("0100", "two octets"),
    ("000100", "two octets after a zero"),
    ("7fff", "the last two without a zero"),
    ("8000", "the first two with a zero"),
    ("0c8ee0c90d6a89158804061ee241f9af", "a serial number"),
    ("00fffffffffffffffffffffffffffffffffe", "a number of more than 128 bits"),
]

# Contents octets of integers, also such as are not the shortest, and of none.
INTEGERS = [
    "00",
    "80",
    "0080",
    "0000",
    "000080",
    "007f",
    "ffff",
    "0100",
    "",
]

# Contents octets of bit strings.
BIT_STRINGS = [
    "00",
    "00a0",
    "0780",
    "01fe",
    "01ff",
    "0000",
    "061234c0",
    "05a0",
]

# Contents octets of no bit string: there is no count, it is past seven, or nothing follows it.
NO_BIT_STRINGS = [
    "",
    "07",
    "01",
    "08",
    "0800",
    "8000",
    "ff0102",
]

# Octets all of whose bits are a string.
WHOLE_BITS = [
    "a0",
    "",
]

# Texts of the seven-bit alphabet.
IA5_TEXTS = [
    "",
    "localhost",
    "a@b",
    "\x7f",
    "\x00~",
]

# Texts with a character past the alphabet.
OTHER_TEXTS = [
    "é",
    "café",
    "\x80",
    "😀",
    "a\x7fÿb",
]

# Octets past the alphabet.
OTHER_OCTETS = [
    "80",
    "ff",
    "6180",
    "e97f",
]
