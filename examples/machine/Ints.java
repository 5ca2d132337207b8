// Arithmetic, narrowing, constants and conditions on ints.
class Ints {
    static int add(int a, int b) {
        return a + b;
    }

    static int sub(int a, int b) {
        return a - b;
    }

    static int mul(int a, int b) {
        return a * b;
    }

    static int div(int a, int b) {
        return a / b;
    }

    static int rem(int a, int b) {
        return a % b;
    }

    static int neg(int a) {
        return -a;
    }

    static int shl(int a, int b) {
        return a << b;
    }

    static int shr(int a, int b) {
        return a >> b;
    }

    static int ushr(int a, int b) {
        return a >>> b;
    }

    static int and(int a, int b) {
        return a & b;
    }

    static int or(int a, int b) {
        return a | b;
    }

    static int xor(int a, int b) {
        return a ^ b;
    }

    // iinc by the ends of a byte, and wide iinc by the ends of a short
    static int inc(int a) {
        a += 127;
        a += -128;
        a += 32767;
        a += -32768;
        return a;
    }

    static int toByte(int a) {
        return (byte) a;
    }

    static int toChar(int a) {
        return (char) a;
    }

    static int toShort(int a) {
        return (short) a;
    }

    // iconst_m1 to iconst_5, bipush, sipush and ldc
    static int constant(int which) {
        switch (which) {
            case -1:
                return -1;
            case 0:
                return 0;
            case 1:
                return 1;
            case 2:
                return 2;
            case 3:
                return 3;
            case 4:
                return 4;
            case 5:
                return 5;
            case 6:
                return 127;
            case 7:
                return -128;
            case 8:
                return 32767;
            case 9:
                return -32768;
            case 10:
                return 2147483647;
            default:
                return -2147483648;
        }
    }

    // which of six conditions hold of an int and 0: one bit each
    static int zero(int a) {
        int found = 0;
        if (a == 0) {
            found |= 1;
        }
        if (a != 0) {
            found |= 2;
        }
        if (a < 0) {
            found |= 4;
        }
        if (a >= 0) {
            found |= 8;
        }
        if (a > 0) {
            found |= 16;
        }
        if (a <= 0) {
            found |= 32;
        }
        return found;
    }

    // which hold of two ints
    static int pair(int a, int b) {
        int found = 0;
        if (a == b) {
            found |= 1;
        }
        if (a != b) {
            found |= 2;
        }
        if (a < b) {
            found |= 4;
        }
        if (a >= b) {
            found |= 8;
        }
        if (a > b) {
            found |= 16;
        }
        if (a <= b) {
            found |= 32;
        }
        return found;
    }

    static boolean truth(boolean a, boolean b) {
        return a && !b || a ^ b;
    }

    static void nothing(int a) {
    }

    static int quotients(int a, int b) {
        return a / b * b + a % b;
    }
}
