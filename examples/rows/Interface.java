// Gone as an interface.
interface Gone {
}
