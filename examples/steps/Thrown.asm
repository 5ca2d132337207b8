# The worked rows: a handler's range ends behind the division, and before it.
class 0021 Thrown java/lang/Object
method 0009 c (I)I 2 1
:a
iconst_1
iload_0
idiv
:b
ireturn
:h
pop
iconst_m1
ireturn
catch a b h java/lang/ArithmeticException
end
method 0009 ended (I)I 2 1
:a
iconst_1
iload_0
:b
idiv
ireturn
:h
pop
iconst_m1
ireturn
catch a b h java/lang/ArithmeticException
end
# a handler in front of its range: the transfer is one back
method 0009 front (I)I 3 1
goto start
:h
pop
iconst_m1
ireturn
:start
:a
iconst_1
iload_0
irem
:b
ireturn
catch a b h any
end
# a handler that guards itself: the division is tried again and again
method 0009 itself (I)I 3 1
:a
iconst_1
iload_0
idiv
:b
ireturn
catch a b a java/lang/ArithmeticException
end
# the stack holds the exception alone
method 0009 alone (I)Ljava/lang/Object; 4 1
iconst_1
iconst_2
:a
iconst_3
iload_0
idiv
:b
pop
pop
pop
aconst_null
areturn
:h
areturn
catch a b h any
end
# a null that is thrown, and an object that is no exception
method 0009 nothing ()I 1 0
:a
aconst_null
athrow
:b
:h
pop
iconst_4
ireturn
catch a b h java/lang/NullPointerException
end
method 0009 other (LThrown;)V 1 1
aload_0
athrow
end
method 0009 array ([I)V 1 1
:a
aload_0
athrow
:b
:h
pop
return
catch a b h any
end
method 0009 anInt ()V 1 0
iconst_1
athrow
end
# the first entry that takes the exception, also where the second is nearer
method 0009 first (I)I 2 1
:a
:c
iconst_1
iload_0
idiv
:b
:d
ireturn
:wide
pop
iconst_1
ireturn
:near
pop
iconst_2
ireturn
catch a b wide java/lang/RuntimeException
catch c d near java/lang/ArithmeticException
end
# entries of which the first takes another exception
method 0009 second (I)I 2 1
:a
iconst_1
iload_0
idiv
:b
ireturn
:null
pop
iconst_1
ireturn
:wide
pop
iconst_2
ireturn
catch a b null java/lang/NullPointerException
catch a b wide java/lang/Exception
end
# what is no class of an exception takes none
method 0009 byArray (I)I 2 1
:a
iconst_1
iload_0
idiv
:b
ireturn
:h
pop
iconst_2
ireturn
catch a b h [I
end
method 0009 byGone (I)I 2 1
:a
iconst_1
iload_0
idiv
:b
ireturn
:h
pop
iconst_2
ireturn
catch a b h Gone
end
class 0021 Given java/lang/Object
# the class names no exception but that of its argument
method 0009 x (Ljava/lang/RuntimeException;)V 1 1
aload_0
athrow
end
