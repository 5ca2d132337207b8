# The worked rows: an abstract class of which two classes are, and a field of an interface that nothing implements.
class 0021 H java/lang/Object
field 0000 s LS;
method 0009 g (LH;)I 1 1
aload_0
getfield H s LS;
invokevirtual S area ()I
ireturn
end
class 0421 S java/lang/Object
method 0401 area ()I
class 0021 A S
method 0001 area ()I 1 1
iconst_1
ireturn
end
class 0021 B S
method 0001 area ()I 1 1
iconst_2
ireturn
end
class 0021 J java/lang/Object
field 0000 s LFace;
method 0009 g (LJ;)I 1 1
aload_0
getfield J s LFace;
invokeinterface Face area ()I
ireturn
end
class 0601 Face java/lang/Object
method 0401 area ()I
