"""Reports that one looks at: a page for a browser, a text for a terminal, the source of a JUnit test."""
