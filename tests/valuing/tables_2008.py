"""The tables of the 2008 section as 001 prints them, TV3 and TV4: a transcription apart from figures/factors.txt, which the model
reads. What each age is paid is stated from it, and the two are compared.
"""

from fractions import Fraction

from model.factors import FACTORS
from model.fields import FEMALE, MALE


def printed_table(columns, rows):
    """A table of 001: by age, the factors by the letters of their columns."""
    ages = {}
    for row in rows.strip().splitlines():
        years, pension, lump, survivor, deduction = row.split()
        ages[int(years)] = dict(zip(columns.split(), map(Fraction, (pension, lump, survivor, deduction))))
    return ages


# Men, and women, whose deduction stands in column E below 60 and in column F from 60.
TV3 = printed_table("A B C E", """
    18 6.50 0.33 0.76 4.65
    19 6.64 0.34 0.80 4.78
    20 6.78 0.35 0.82 4.91
    21 6.93 0.36 0.84 5.04
    22 7.07 0.36 0.86 5.18
    23 7.22 0.37 0.88 5.32
    24 7.38 0.38 0.90 5.46
    25 7.53 0.39 0.92 5.61
    26 7.69 0.40 0.94 5.77
    27 7.85 0.41 0.96 5.92
    28 8.02 0.42 0.99 6.08
    29 8.19 0.43 1.01 6.25
    30 8.36 0.44 1.03 6.42
    31 8.54 0.45 1.05 6.60
    32 8.72 0.46 1.08 6.78
    33 8.91 0.47 1.10 6.96
    34 9.10 0.49 1.12 7.15
    35 9.29 0.50 1.15 7.35
    36 9.49 0.51 1.17 7.55
    37 9.70 0.52 1.19 7.76
    38 9.90 0.53 1.21 7.97
    39 10.12 0.55 1.24 8.19
    40 10.34 0.56 1.26 8.42
    41 10.56 0.57 1.28 8.65
    42 10.79 0.59 1.30 8.90
    43 11.02 0.60 1.32 9.14
    44 11.26 0.62 1.34 9.40
    45 11.51 0.63 1.37 9.66
    46 11.76 0.64 1.39 9.93
    47 12.02 0.66 1.41 10.21
    48 12.29 0.68 1.43 10.49
    49 12.56 0.69 1.45 10.79
    50 12.84 0.71 1.46 11.09
    51 13.13 0.73 1.48 11.41
    52 13.42 0.74 1.50 11.73
    53 13.73 0.76 1.52 12.07
    54 14.04 0.78 1.53 12.42
    55 14.37 0.80 1.54 12.78
    56 14.70 0.82 1.56 13.16
    57 15.04 0.84 1.57 13.54
    58 15.40 0.86 1.58 13.95
    59 15.77 0.88 1.58 14.37
    60 16.15 0.90 1.59 14.80
    61 16.55 0.92 1.59 15.26
    62 16.96 0.94 1.59 15.73
    63 17.39 0.97 1.59 16.23
    64 17.83 0.99 1.59 16.74
""")
TV4 = printed_table("A B C E", """
    18 6.50 0.33 0.76 4.65
    19 6.64 0.34 0.80 4.78
    20 6.78 0.35 0.82 4.91
    21 6.93 0.36 0.84 5.04
    22 7.07 0.36 0.86 5.18
    23 7.22 0.37 0.88 5.32
    24 7.38 0.38 0.90 5.46
    25 7.53 0.39 0.92 5.61
    26 7.69 0.40 0.94 5.77
    27 7.85 0.41 0.96 5.92
    28 8.02 0.42 0.99 6.08
    29 8.19 0.43 1.01 6.25
    30 8.36 0.44 1.03 6.42
    31 8.54 0.45 1.05 6.60
    32 8.72 0.46 1.08 6.78
    33 8.91 0.47 1.10 6.96
    34 9.10 0.49 1.12 7.15
    35 9.29 0.50 1.15 7.35
    36 9.49 0.51 1.17 7.55
    37 9.70 0.52 1.19 7.76
    38 9.90 0.53 1.21 7.97
    39 10.12 0.55 1.24 8.19
    40 10.34 0.56 1.26 8.42
    41 10.56 0.57 1.28 8.65
    42 10.79 0.59 1.30 8.90
    43 11.02 0.60 1.32 9.14
    44 11.26 0.62 1.34 9.40
    45 11.51 0.63 1.37 9.66
    46 11.76 0.64 1.39 9.93
    47 12.02 0.66 1.41 10.21
    48 12.29 0.68 1.43 10.49
    49 12.56 0.69 1.45 10.79
    50 12.84 0.71 1.46 11.09
    51 13.13 0.73 1.48 11.41
    52 13.42 0.74 1.50 11.73
    53 13.73 0.76 1.52 12.07
    54 14.04 0.78 1.53 12.42
    55 14.37 0.80 1.54 12.78
    56 14.70 0.82 1.56 13.16
    57 15.04 0.84 1.57 13.54
    58 15.40 0.86 1.58 13.95
    59 15.77 0.88 1.58 14.37
""") | printed_table("A B C F", """
    60 16.15 0.90 1.59 14.80
    61 16.55 0.92 1.59 15.26
    62 16.96 0.94 1.59 15.73
    63 17.39 0.97 1.59 16.23
    64 17.83 0.99 1.59 16.74
""")


def factors_2008(sex, years):
    """The factors of pension, lump sum, survivor and deduction."""
    row = {MALE: TV3, FEMALE: TV4}[sex][years]
    return row["A"], row["B"], row["C"], row["F" if sex == FEMALE and years >= 60 else "E"]


def tables_agree():
    """Whether the model's factors of the 2008 section are these."""
    here = {("2008m", years): factors_2008(MALE, years) for years in TV3}
    here |= {("2008f", years): factors_2008(FEMALE, years) for years in TV4}
    return here == {key: figures for key, figures in FACTORS.items() if key[0] in ("2008m", "2008f")}
