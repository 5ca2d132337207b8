// Of P and Q, here and in First.java, each extends the other.
interface Q extends P {
}

interface P {
}
