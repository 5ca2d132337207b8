# Each class of exceptions of the platform, made by `new`: caught by its own name, by that of the class above it, and by neither.
class 0021 Each java/lang/Object
method 0009 throwable (I)I 2 1
iload_0
tableswitch 0 neither own above
:own
new java/lang/Throwable
dup
invokespecial java/lang/Throwable <init> ()V
athrow
:above
new java/lang/Throwable
dup
invokespecial java/lang/Throwable <init> ()V
athrow
:neither
new java/lang/Throwable
dup
invokespecial java/lang/Throwable <init> ()V
athrow
:end
:owned
pop
iconst_1
ireturn
:aboved
pop
iconst_2
ireturn
catch own above owned java/lang/Throwable
catch above neither aboved any
catch neither end aboved java/lang/UnsupportedOperationException
end
method 0009 exception (I)I 2 1
iload_0
tableswitch 0 neither own above
:own
new java/lang/Exception
dup
invokespecial java/lang/Exception <init> ()V
athrow
:above
new java/lang/Exception
dup
invokespecial java/lang/Exception <init> ()V
athrow
:neither
new java/lang/Exception
dup
invokespecial java/lang/Exception <init> ()V
athrow
:end
:owned
pop
iconst_1
ireturn
:aboved
pop
iconst_2
ireturn
catch own above owned java/lang/Exception
catch above neither aboved java/lang/Throwable
catch neither end aboved java/lang/UnsupportedOperationException
end
method 0009 runtimeException (I)I 2 1
iload_0
tableswitch 0 neither own above
:own
new java/lang/RuntimeException
dup
invokespecial java/lang/RuntimeException <init> ()V
athrow
:above
new java/lang/RuntimeException
dup
invokespecial java/lang/RuntimeException <init> ()V
athrow
:neither
new java/lang/RuntimeException
dup
invokespecial java/lang/RuntimeException <init> ()V
athrow
:end
:owned
pop
iconst_1
ireturn
:aboved
pop
iconst_2
ireturn
catch own above owned java/lang/RuntimeException
catch above neither aboved java/lang/Exception
catch neither end aboved java/lang/UnsupportedOperationException
end
method 0009 error (I)I 2 1
iload_0
tableswitch 0 neither own above
:own
new java/lang/Error
dup
invokespecial java/lang/Error <init> ()V
athrow
:above
new java/lang/Error
dup
invokespecial java/lang/Error <init> ()V
athrow
:neither
new java/lang/Error
dup
invokespecial java/lang/Error <init> ()V
athrow
:end
:owned
pop
iconst_1
ireturn
:aboved
pop
iconst_2
ireturn
catch own above owned java/lang/Error
catch above neither aboved java/lang/Throwable
catch neither end aboved java/lang/UnsupportedOperationException
end
method 0009 arithmeticException (I)I 2 1
iload_0
tableswitch 0 neither own above
:own
new java/lang/ArithmeticException
dup
invokespecial java/lang/ArithmeticException <init> ()V
athrow
:above
new java/lang/ArithmeticException
dup
invokespecial java/lang/ArithmeticException <init> ()V
athrow
:neither
new java/lang/ArithmeticException
dup
invokespecial java/lang/ArithmeticException <init> ()V
athrow
:end
:owned
pop
iconst_1
ireturn
:aboved
pop
iconst_2
ireturn
catch own above owned java/lang/ArithmeticException
catch above neither aboved java/lang/RuntimeException
catch neither end aboved java/lang/UnsupportedOperationException
end
method 0009 indexOutOfBoundsException (I)I 2 1
iload_0
tableswitch 0 neither own above
:own
new java/lang/IndexOutOfBoundsException
dup
invokespecial java/lang/IndexOutOfBoundsException <init> ()V
athrow
:above
new java/lang/IndexOutOfBoundsException
dup
invokespecial java/lang/IndexOutOfBoundsException <init> ()V
athrow
:neither
new java/lang/IndexOutOfBoundsException
dup
invokespecial java/lang/IndexOutOfBoundsException <init> ()V
athrow
:end
:owned
pop
iconst_1
ireturn
:aboved
pop
iconst_2
ireturn
catch own above owned java/lang/IndexOutOfBoundsException
catch above neither aboved java/lang/RuntimeException
catch neither end aboved java/lang/UnsupportedOperationException
end
method 0009 arrayIndexOutOfBoundsException (I)I 2 1
iload_0
tableswitch 0 neither own above
:own
new java/lang/ArrayIndexOutOfBoundsException
dup
invokespecial java/lang/ArrayIndexOutOfBoundsException <init> ()V
athrow
:above
new java/lang/ArrayIndexOutOfBoundsException
dup
invokespecial java/lang/ArrayIndexOutOfBoundsException <init> ()V
athrow
:neither
new java/lang/ArrayIndexOutOfBoundsException
dup
invokespecial java/lang/ArrayIndexOutOfBoundsException <init> ()V
athrow
:end
:owned
pop
iconst_1
ireturn
:aboved
pop
iconst_2
ireturn
catch own above owned java/lang/ArrayIndexOutOfBoundsException
catch above neither aboved java/lang/IndexOutOfBoundsException
catch neither end aboved java/lang/UnsupportedOperationException
end
method 0009 arrayStoreException (I)I 2 1
iload_0
tableswitch 0 neither own above
:own
new java/lang/ArrayStoreException
dup
invokespecial java/lang/ArrayStoreException <init> ()V
athrow
:above
new java/lang/ArrayStoreException
dup
invokespecial java/lang/ArrayStoreException <init> ()V
athrow
:neither
new java/lang/ArrayStoreException
dup
invokespecial java/lang/ArrayStoreException <init> ()V
athrow
:end
:owned
pop
iconst_1
ireturn
:aboved
pop
iconst_2
ireturn
catch own above owned java/lang/ArrayStoreException
catch above neither aboved java/lang/RuntimeException
catch neither end aboved java/lang/UnsupportedOperationException
end
method 0009 classCastException (I)I 2 1
iload_0
tableswitch 0 neither own above
:own
new java/lang/ClassCastException
dup
invokespecial java/lang/ClassCastException <init> ()V
athrow
:above
new java/lang/ClassCastException
dup
invokespecial java/lang/ClassCastException <init> ()V
athrow
:neither
new java/lang/ClassCastException
dup
invokespecial java/lang/ClassCastException <init> ()V
athrow
:end
:owned
pop
iconst_1
ireturn
:aboved
pop
iconst_2
ireturn
catch own above owned java/lang/ClassCastException
catch above neither aboved java/lang/RuntimeException
catch neither end aboved java/lang/UnsupportedOperationException
end
method 0009 illegalArgumentException (I)I 2 1
iload_0
tableswitch 0 neither own above
:own
new java/lang/IllegalArgumentException
dup
invokespecial java/lang/IllegalArgumentException <init> ()V
athrow
:above
new java/lang/IllegalArgumentException
dup
invokespecial java/lang/IllegalArgumentException <init> ()V
athrow
:neither
new java/lang/IllegalArgumentException
dup
invokespecial java/lang/IllegalArgumentException <init> ()V
athrow
:end
:owned
pop
iconst_1
ireturn
:aboved
pop
iconst_2
ireturn
catch own above owned java/lang/IllegalArgumentException
catch above neither aboved java/lang/RuntimeException
catch neither end aboved java/lang/UnsupportedOperationException
end
method 0009 illegalStateException (I)I 2 1
iload_0
tableswitch 0 neither own above
:own
new java/lang/IllegalStateException
dup
invokespecial java/lang/IllegalStateException <init> ()V
athrow
:above
new java/lang/IllegalStateException
dup
invokespecial java/lang/IllegalStateException <init> ()V
athrow
:neither
new java/lang/IllegalStateException
dup
invokespecial java/lang/IllegalStateException <init> ()V
athrow
:end
:owned
pop
iconst_1
ireturn
:aboved
pop
iconst_2
ireturn
catch own above owned java/lang/IllegalStateException
catch above neither aboved java/lang/RuntimeException
catch neither end aboved java/lang/UnsupportedOperationException
end
method 0009 negativeArraySizeException (I)I 2 1
iload_0
tableswitch 0 neither own above
:own
new java/lang/NegativeArraySizeException
dup
invokespecial java/lang/NegativeArraySizeException <init> ()V
athrow
:above
new java/lang/NegativeArraySizeException
dup
invokespecial java/lang/NegativeArraySizeException <init> ()V
athrow
:neither
new java/lang/NegativeArraySizeException
dup
invokespecial java/lang/NegativeArraySizeException <init> ()V
athrow
:end
:owned
pop
iconst_1
ireturn
:aboved
pop
iconst_2
ireturn
catch own above owned java/lang/NegativeArraySizeException
catch above neither aboved java/lang/RuntimeException
catch neither end aboved java/lang/UnsupportedOperationException
end
method 0009 nullPointerException (I)I 2 1
iload_0
tableswitch 0 neither own above
:own
new java/lang/NullPointerException
dup
invokespecial java/lang/NullPointerException <init> ()V
athrow
:above
new java/lang/NullPointerException
dup
invokespecial java/lang/NullPointerException <init> ()V
athrow
:neither
new java/lang/NullPointerException
dup
invokespecial java/lang/NullPointerException <init> ()V
athrow
:end
:owned
pop
iconst_1
ireturn
:aboved
pop
iconst_2
ireturn
catch own above owned java/lang/NullPointerException
catch above neither aboved java/lang/RuntimeException
catch neither end aboved java/lang/UnsupportedOperationException
end
method 0009 unsupportedOperationException (I)I 2 1
iload_0
tableswitch 0 neither own above
:own
new java/lang/UnsupportedOperationException
dup
invokespecial java/lang/UnsupportedOperationException <init> ()V
athrow
:above
new java/lang/UnsupportedOperationException
dup
invokespecial java/lang/UnsupportedOperationException <init> ()V
athrow
:neither
new java/lang/UnsupportedOperationException
dup
invokespecial java/lang/UnsupportedOperationException <init> ()V
athrow
:end
:owned
pop
iconst_1
ireturn
:aboved
pop
iconst_2
ireturn
catch own above owned java/lang/UnsupportedOperationException
catch above neither aboved java/lang/RuntimeException
catch neither end aboved java/lang/ClassCastException
end
method 0009 noSuchElementException (I)I 2 1
iload_0
tableswitch 0 neither own above
:own
new java/util/NoSuchElementException
dup
invokespecial java/util/NoSuchElementException <init> ()V
athrow
:above
new java/util/NoSuchElementException
dup
invokespecial java/util/NoSuchElementException <init> ()V
athrow
:neither
new java/util/NoSuchElementException
dup
invokespecial java/util/NoSuchElementException <init> ()V
athrow
:end
:owned
pop
iconst_1
ireturn
:aboved
pop
iconst_2
ireturn
catch own above owned java/util/NoSuchElementException
catch above neither aboved java/lang/RuntimeException
catch neither end aboved java/lang/UnsupportedOperationException
end
