"""Time, by exact fractions and a calendar."""
from datetime import date, timedelta
from fractions import Fraction

DAY = 86_400_000
LAST_START = 8_639_999_999_999

def nearest(x): return (x + Fraction(1, 2)).__floor__()

def start(days, digits):
    """of a day count and the digits of a fraction, in milliseconds"""
    return nearest((days + Fraction(int(digits), 10 ** len(digits))) * DAY)

def fraction(ms):
    """ten digits for a millisecond of a day"""
    return nearest(Fraction(ms * 10 ** 10, DAY))

def day(days):
    d = date(1899, 12, 30) + timedelta(days)
    return d.day, d.month, d.year

def stamp(start, offset):
    """day, month, year; days, hour, minute, second and the parts of 100 microseconds"""
    seconds, part = divmod((start * 1000 + offset) // 100, 10_000)
    days, second = divmod(seconds, 86_400)
    return *day(days), days, second // 3600, second // 60 % 60, second % 60, part
