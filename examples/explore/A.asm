class 0021 A java/lang/Object
field 0000 z Z
field 0000 next LA;
method 0001 <init> ()V 1 1
aload_0
invokespecial java/lang/Object <init> ()V
return
end
method 0009 f (LA;I)Z 2 2
aload_0
iload_1
putfield A z Z
aload_0
getfield A z Z
ireturn
end
method 0009 f ()V 2 0
aconst_null
iconst_1
putfield A next LA;
return
end
