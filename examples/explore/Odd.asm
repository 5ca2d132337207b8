class 0021 Odd java/lang/Object
field 0000 one I
field 0000 one LOdd;
field 0000 is%20set Z
method 0001 <init> ()V 1 1
aload_0
invokespecial java/lang/Object <init> ()V
return
end
method 0001 twoOfOneName ()I 2 1
aload_0
getfield Odd one LOdd;
aload_0
putfield Odd one LOdd;
aload_0
getfield Odd one I
ireturn
end
method 0001 setAgain ()Z 2 1
aload_0
aload_0
getfield Odd is%20set Z
putfield Odd is%20set Z
aload_0
getfield Odd is%20set Z
ireturn
end
method 0001 far ()LOdd; 1 300
aload_0
astore 299
aload 299
areturn
end
method 0001 divided (I)I 2 2
aload_0
getfield Odd one I
iload_1
idiv
ireturn
end
method 0009 written (LOdd;)I 2 1
aload_0
iconst_5
putfield Odd one I
aload_0
getfield Odd one I
ireturn
end
method 0009 chosen (LOdd;LOdd;)LOdd; 2 2
aload_0
getfield Odd one I
lookupswitch d -7:a 7:b
:a
aload_0
areturn
:b
aload_1
areturn
:d
aconst_null
areturn
end
method 0009 spins (LOdd;)V 1 1
:t
aload_0
ifnonnull t
return
end
method 0009 other (LOther;)I 1 1
aload_0
getfield Odd one I
ireturn
end
method 0009 putOther (LOther;LOther;)V 2 2
aload_0
aload_1
putfield Odd one LOdd;
return
end
method 0009 intAsReference (I)LOdd; 1 1
iload_0
areturn
end
method 0009 referenceAsInt (LOdd;)I 1 1
aload_0
ireturn
end
method 0009 intOfReference (LOdd;)LOdd; 1 1
iload_0
pop
aload_0
areturn
end
method 0009 wrongResult (LOdd;)I 1 1
aload_0
areturn
end
method 0009 noResult (LOdd;)LOdd; 1 1
return
end
method 0009 comparedWithInt (LOdd;I)I 2 2
aload_0
iload_1
if_acmpeq e
:e
iconst_0
ireturn
end
method 0009 fieldOfInt (I)I 1 1
iload_0
getfield Odd one I
ireturn
end
method 0009 highLocal (LOdd;)LOdd; 1 1
aload_0
astore_1
aload_1
areturn
end
method 0009 fullStack (LOdd;)LOdd; 1 1
aload_0
aload_0
areturn
end
method 0009 emptyStack (LOdd;)V 1 1
ifnull e
:e
return
end
