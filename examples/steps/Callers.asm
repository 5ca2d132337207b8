# Exceptions that leave a called method, and the caller's handlers, which are sought at its call.
class 0021 Callers java/lang/Object
method 0009 one (I)I 2 1
iconst_1
iload_0
idiv
ireturn
end
method 0009 caught (I)I 1 1
:a
iload_0
invokestatic Callers one (I)I
:b
ireturn
:h
pop
iconst_m1
ireturn
catch a b h java/lang/ArithmeticException
end
# the range ends at the call
method 0009 before (I)I 1 1
:a
iload_0
:b
invokestatic Callers one (I)I
ireturn
:h
pop
iconst_m1
ireturn
catch a b h any
end
# the range begins at the call
method 0009 from (I)I 1 1
iload_0
:a
invokestatic Callers one (I)I
:b
ireturn
:h
pop
iconst_m1
ireturn
catch a b h any
end
# the range begins behind the call
method 0009 behind (I)I 1 1
iload_0
invokestatic Callers one (I)I
:a
ireturn
:b
:h
pop
iconst_m1
ireturn
catch a b h any
end
# through a frame that takes another exception
method 0009 through (I)I 1 1
:a
iload_0
invokestatic Callers passes (I)I
:b
ireturn
:h
pop
iconst_m1
ireturn
catch a b h java/lang/RuntimeException
end
method 0009 passes (I)I 2 1
:a
iconst_5
iload_0
invokestatic Callers one (I)I
iadd
:b
ireturn
:h
pop
iconst_0
ireturn
catch a b h java/lang/NullPointerException
end
# a caller whose stack has no room for the exception
method 0009 noRoom ()V 0 0
:a
invokestatic Callers fails ()V
:b
return
:h
return
catch a b h any
end
# the same with the handler in front of its call: no room comes before `loops`
method 0009 noRoomInFront ()V 0 0
goto start
:h
return
:start
:a
invokestatic Callers fails ()V
:b
return
catch a b h any
end
method 0009 fails ()V 2 0
iconst_1
iconst_0
idiv
pop
return
end
# the caller's handler in front of its call: the caller's transfer is counted, not that of the called method
method 0009 again (I)I 2 2
iconst_0
istore_1
goto start
:h
pop
iinc 1 1
iload_1
iconst_2
if_icmpeq done
:start
:a
iload_0
invokestatic Callers turns (I)I
:b
ireturn
:done
iload_1
ireturn
catch a b h any
end
method 0009 turns (I)I 2 2
iconst_0
istore_1
:top
iinc 1 1
iload_1
iconst_2
if_icmplt top
iload_1
iload_0
idiv
ireturn
end
# objects of the input that are thrown: one that is caught, and one that ends the run
method 0009 given (LOwn;)LOwn; 1 1
:a
aload_0
invokestatic Callers throwing (LOwn;)V
:b
aconst_null
areturn
:h
areturn
catch a b h Own
end
method 0009 throwing (LOwn;)V 1 1
aload_0
athrow
end
# a null receiver of a call, which the caller's handler takes
method 0009 onNull ()I 2 0
:a
aconst_null
iconst_1
invokevirtual Own code (I)I
:b
ireturn
:h
pop
iconst_m1
ireturn
catch a b h java/lang/NullPointerException
end
class 0021 Own java/lang/RuntimeException
field 0000 code I
method 0001 <init> (I)V 2 2
aload_0
invokespecial java/lang/RuntimeException <init> ()V
aload_0
iload_1
putfield Own code I
return
end
method 0001 code (I)I 1 2
iload_1
ireturn
end
