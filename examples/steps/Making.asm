# Objects that a run makes.
class 0021 Base java/lang/Object
field 0000 count I
field 0000 flag Z
method 0001 <init> ()V 1 1
aload_0
invokespecial java/lang/Object <init> ()V
return
end
class 0021 Made Base
field 0000 next LMade;
field 0008 shared I
method 0001 <init> (I)V 2 2
aload_0
invokespecial Base <init> ()V
aload_0
iload_1
putfield Base count I
return
end
# the slots of the class above come first, and each has 0 or null
method 0009 fresh ()LMade; 1 0
new Made
areturn
end
# what is written into an object of the run, and read from it
method 0009 filled (I)LMade; 4 2
new Made
dup
iload_0
invokespecial Made <init> (I)V
astore_1
aload_1
iload_0
putfield Made flag Z
aload_1
aload_1
putfield Made next LMade;
aload_1
getfield Made next LMade;
areturn
end
# an object of the run in a slot of the input
method 0009 hung (LMade;)LMade; 4 1
aload_0
new Made
dup
iconst_3
invokespecial Made <init> (I)V
putfield Made next LMade;
aload_0
getfield Made next LMade;
areturn
end
# an object of the input in a slot of the run
method 0009 holds (LMade;)LMade; 4 2
new Made
astore_1
aload_1
aload_0
putfield Made next LMade;
aload_1
areturn
end
# two objects of one class are two
method 0009 two ()I 2 0
new Made
new Made
if_acmpeq same
iconst_0
ireturn
:same
iconst_1
ireturn
end
# the second one is the first that anybody meets
method 0009 dropped ()LMade; 2 0
new Made
new Made
areturn
end
# no room for it: it is not made
method 0009 noRoom ()V 1 0
new Made
new Made
return
end
# a slot that the object does not have
method 0009 lacks ()LMade; 1 0
new Base
getfield Made next LMade;
areturn
end
# an exception of the platform, and one behind an object that was made
method 0009 exception ()Ljava/lang/Exception; 2 0
new java/lang/IllegalStateException
dup
invokespecial java/lang/IllegalStateException <init> ()V
areturn
end
method 0009 behind ()I 2 0
new Made
aconst_null
getfield Made count I
ireturn
end
