// The class Gone without the members that Reached names.
class Gone {
    int kept;
}
