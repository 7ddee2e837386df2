"""Lines that are no request."""

JOINS = [
    "JOIN g - - c 10000 20000 consumer", "JOIN g - - c 10000 20000 consumer ",
    "JOIN g - - c 10000 20000 consumer a=x b=x c=x d=x e=x", "JOIN g - - c 10000 20000 consumer a=x a=x00",
    "JOIN g - - - 10000 20000 consumer a=x", "JOIN g - - c 10000 20000 - a=x", "JOIN g - - c 10000 20000 consumer -=x",
    "JOIN g - - c 10000 20000 consumer =x", "JOIN g - - c 10000 20000 consumer a", "JOIN g - - c 10000 20000 consumer a=",
    "JOIN g - - c 10000 20000 consumer a=-", "JOIN g - - c 10000 20000 consumer a=00", "JOIN g - - c 10000 20000 consumer a=x0",
    "JOIN g - - c 10000 20000 consumer a=xAB", "JOIN g - - c 10000 20000 consumer a=X00",
    "JOIN g - - c 10000 20000 consumer a=x0g", "JOIN g - - c 10000 20000 consumer a=x=x",
    "JOIN g - - c 2147483648 20000 consumer a=x",
    "JOIN g - - c 10000 2147483648 consumer a=x", "JOIN g - - c -1 20000 consumer a=x", "JOIN g - - c 010000 20000 consumer a=x",
    "JOIN g - - c 10000  20000 consumer a=x", f"JOIN g - - c 10000 20000 consumer a=x{'00' * 1_025}",
    f"JOIN {'g' * 101} - - c 10000 20000 consumer a=x", f"JOIN g {'m' * 138} - c 10000 20000 consumer a=x",
]
SYNCS_AND_BEATS = [
    "SYNC g 1 m", "SYNC g 1 m - ", "SYNC g 1 m - -=x", "SYNC g 1 m - m=x m=x", "SYNC g 1 m - m", "SYNC g - m -",
    f"SYNC g 1 m - m=x{'00' * 4_097}", f"SYNC g 1 m - {' '.join(f'm{it}=x' for it in range(65))}",
    "BEAT g 01 m -", "BEAT g -0 m -", "BEAT g -01 m -", "BEAT g +1 m -", "BEAT g --1 m -", "BEAT g 2147483648 m -",
    "BEAT g -2147483649 m -", "BEAT g 18446744073709551616 m -", "BEAT g 1a m -", "BEAT g 1 m", "BEAT g 1 m - -",
]
COMMITS_AND_FETCHES = [
    "COMMIT g 1 m -", "COMMIT g 1 m - t:0:0", "COMMIT g 1 m - t:0:0:x:x", "COMMIT g 1 m - t:0:0:00", "COMMIT g 1 m - t:00:0:x",
    "COMMIT g -1 - - t:0:01:xff", "COMMIT g 1 m - t:2147483648:0:x", "COMMIT g 1 m - t:0:9223372036854775808:x",
    "COMMIT g 1 m - t:0:-1:x", "COMMIT g 1 m - -:0:0:x", "COMMIT g 1 m - t:0:0:x t:0:1:x00",
    f"COMMIT g -1 - - {' '.join(f't:{it}:0:x' for it in range(257))}",
    "FETCH g", "FETCH g t", "FETCH g t:", "FETCH g t:0:0", "FETCH g t:0 u:0 t:0", "FETCH g t:0 ",
    f"FETCH g {' '.join(f't:{it}' for it in range(257))}",
]
DROPS = [
    "DROP", "DROP g", "DROP g ", "DROP g t", "DROP g t:", "DROP g :0", "DROP g -:0", "DROP g t:0:0", "DROP g t:00", "DROP g t:-1",
    "DROP g t:2147483648", "DROP g u:0 t:0 u:0", "DROP g t:0 ", "DROP g  t:0", "DROP g:h t:0", "DROP t:0", "drop g t:0",
    "DROP g t:0\r", f"DROP g {' '.join(f't:{it}' for it in range(257))}",
]
OTHERS = [
    "", " ", "list", "LIST ", " LIST", "LIST g", "LIST\r", "LIS T", "NONE g", "DESCRIBE", "DESCRIBE ", "DESCRIBE g h",
    "DESCRIBE  g", "DESCRIBE g ", "DESCRIBE g:h", "DELETE", "DELETE \u00e9", "LEAVE g m", "LEAVE g m - -", "GROUPS", "s1 LIST",
    "x\0y", "LIST\0",
]
MALFORMED = JOINS + SYNCS_AND_BEATS + COMMITS_AND_FETCHES + DROPS + OTHERS
