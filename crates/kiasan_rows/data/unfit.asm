class 0021 A java/lang/Object
method 0009 f ()V 1 1
:here
nop
goto nowhere
end
