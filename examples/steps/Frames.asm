# Frames: how many there may be, what they hold, and what is handed from one to the next.
class 0021 Frames java/lang/Object
# calls itself until a bound ends the run
method 0009 r (I)I 1 1
iload_0
invokestatic Frames r (I)I
ireturn
end
# calls itself so many times
method 0009 down (I)I 2 1
iload_0
ifeq end
iload_0
iconst_1
isub
invokestatic Frames down (I)I
ireturn
:end
iload_0
ireturn
end
# each activation counts its own transfers: a loop of two turns round a loop of two turns
method 0009 turns ()I 2 2
iconst_0
istore_0
iconst_0
istore_1
:top
iload_0
invokestatic Frames inner ()I
iadd
istore_0
iinc 1 1
iload_1
iconst_2
if_icmplt top
iload_0
ireturn
end
method 0009 inner ()I 2 1
iconst_0
istore_0
:top
iinc 0 1
iload_0
iconst_2
if_icmplt top
iload_0
ireturn
end
# the arguments keep their order, the receiver before them
method 0009 ordered (II)I 4 2
new Frames
iload_0
iload_1
invokespecial Frames minus (II)I
ireturn
end
method 0002 minus (II)I 2 3
iload_1
iload_2
isub
ireturn
end
# what waits in the caller, and what is behind the call
method 0009 waits (I)I 3 2
iconst_5
istore_1
iconst_3
iload_0
invokestatic Frames low (I)Z
iadd
iload_1
iadd
ireturn
end
# of a result of type boolean the lowest bit is kept
method 0009 low (I)Z 1 1
iload_0
ireturn
end
# an argument of that type is kept whole
method 0009 whole ()I 1 0
iconst_2
invokestatic Frames same (Z)I
ireturn
end
method 0009 same (Z)I 1 1
iload_0
ireturn
end
# a result of each kind, where the caller's stack has room for it and where it has none
method 0009 intFits ()I 2 0
iconst_3
invokestatic Frames one ()I
iadd
ireturn
end
method 0009 intFull ()I 1 0
iconst_3
invokestatic Frames one ()I
iadd
ireturn
end
method 0009 one ()I 1 0
iconst_1
ireturn
end
method 0009 booleanFits ()Z 2 0
iconst_0
invokestatic Frames yes ()Z
ior
ireturn
end
method 0009 booleanFull ()Z 1 0
iconst_0
invokestatic Frames yes ()Z
ior
ireturn
end
method 0009 yes ()Z 1 0
iconst_1
ireturn
end
method 0009 referenceFits ()I 2 0
iconst_3
invokestatic Frames none ()Ljava/lang/Object;
pop
ireturn
end
method 0009 referenceFull ()I 1 0
iconst_3
invokestatic Frames none ()Ljava/lang/Object;
pop
ireturn
end
method 0009 none ()Ljava/lang/Object; 1 0
aconst_null
areturn
end
# a method that gives nothing needs no room
method 0009 nothingFull ()I 1 0
iconst_3
invokestatic Frames nothing ()V
ireturn
end
method 0009 nothing ()V 0 0
return
end
# a result takes the place of an argument
method 0009 replaced (I)I 1 1
iload_0
invokestatic Frames same (Z)I
ireturn
end
# results of the wrong kind in a method that is called
method 0009 callsNullAsInt ()I 1 0
invokestatic Frames nullAsInt ()I
ireturn
end
method 0009 nullAsInt ()I 1 0
nop
aconst_null
ireturn
end
method 0009 callsReferenceForInt ()I 1 0
invokestatic Frames referenceForInt ()I
ireturn
end
method 0009 referenceForInt ()I 1 0
aconst_null
areturn
end
method 0009 callsIntForReference ()V 1 0
invokestatic Frames intForReference ()Ljava/lang/Object;
pop
return
end
method 0009 intForReference ()Ljava/lang/Object; 1 0
iconst_1
ireturn
end
method 0009 callsIntForNothing ()V 1 0
invokestatic Frames intForNothing ()V
return
end
method 0009 intForNothing ()V 1 0
iconst_1
ireturn
end
method 0009 callsNothingForInt ()I 1 0
invokestatic Frames nothingForInt ()I
ireturn
end
method 0009 nothingForInt ()I 0 0
return
end
method 0009 callsEmpty ()I 1 0
invokestatic Frames empty ()I
ireturn
end
method 0009 empty ()I 1 0
ireturn
end
# code of a called method that runs off its end
method 0009 callsOff ()V 1 0
invokestatic Frames off ()V
return
end
method 0009 off ()V 1 0
nop
end
# more arguments than the method has locals: they are there, and cannot be loaded
method 0009 callsNarrow (I)I 3 1
iload_0
iconst_2
iconst_3
invokestatic Frames narrow (III)I
ireturn
end
method 0009 narrow (III)I 1 1
iload_0
ireturn
end
method 0009 callsNarrower (I)I 3 1
iload_0
iconst_2
iconst_3
invokestatic Frames narrower (III)I
ireturn
end
method 0009 narrower (III)I 1 1
iload_2
ireturn
end
# arguments that are missing or of another kind
method 0009 missing ()I 1 0
iconst_1
invokestatic Frames two (II)I
ireturn
end
method 0009 otherKind ()I 2 0
iconst_1
aconst_null
invokestatic Frames two (II)I
ireturn
end
method 0009 two (II)I 1 2
iload_1
ireturn
end
