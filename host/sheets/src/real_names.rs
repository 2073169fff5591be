//! Names as real code has them.

use crate::random::Random;

// Classes of Java's library: packages, each followed by names in it.
pub const INTERFACES: &str = "
    java.lang Appendable AutoCloseable CharSequence Cloneable Comparable Iterable Readable Runnable
    java.io Closeable DataInput DataOutput Externalizable Flushable ObjectInput ObjectOutput
        Serializable
    java.util Collection Comparator Enumeration Formattable Iterator List ListIterator Map
        Map$Entry Queue RandomAccess Set SortedMap SortedSet
    java.util.concurrent Callable ConcurrentMap Executor Future
    java.nio.channels Channel ByteChannel";
pub const VALUES: &str = "
    java.lang Boolean Byte Character Double Float Integer Long Short
    java.math BigDecimal BigInteger
    java.util Locale UUID";
pub const FAILURES: &str = "
    java.lang Exception Error RuntimeException ArithmeticException AssertionError
        ClassCastException CloneNotSupportedException IllegalArgumentException
        IllegalStateException IndexOutOfBoundsException NullPointerException
        NumberFormatException UnsupportedOperationException
    java.io IOException EOFException FileNotFoundException UnsupportedEncodingException
    java.util ConcurrentModificationException NoSuchElementException";
pub const TOOLS: &str = "
    java.lang Math Number StringBuffer StringBuilder
    java.io InputStream OutputStream Reader Writer BufferedReader BufferedWriter
        ByteArrayInputStream ByteArrayOutputStream DataInputStream DataOutputStream
        InputStreamReader PrintWriter StringReader StringWriter
    java.util AbstractCollection AbstractList AbstractMap AbstractSet ArrayList Arrays BitSet
        Calendar Collections Date HashMap HashSet LinkedHashMap LinkedList StringTokenizer
        TreeMap TreeSet";
pub const NOT_ALLOWED: &str = "
    java.lang Class ClassLoader Process Runtime SecurityManager Thread ThreadLocal
    java.io FileInputStream FileOutputStream
    java.net ServerSocket Socket";

const PACKAGES: [&str; 3] = [
    "com.example.planning",
    "com.example.network",
    "com.example.display",
];
const THINGS: [&str; 11] = [
    "Order", "Route", "Shift", "Batch", "Carrier", "Plan", "Product", "Step", "Message", "Session",
    "Machine",
];
const ROLES: [&str; 10] = [
    "Reader", "Writer", "Cache", "Table", "Parser", "Entry", "Queue", "Index", "Factory",
    "Position",
];
const VERBS: [&str; 8] = [
    "get", "set", "add", "is", "read", "write", "remove", "create",
];
const ARGUMENTS: [&str; 6] = [
    "()",
    "(int)",
    "(long)",
    "(int,int)",
    "(java.lang.String)",
    "(java.lang.Object)",
];

/// The full names of a list above.
pub fn full_names(list: &str) -> Vec<String> {
    let mut package = "";
    let mut names = Vec::new();
    for word in list.split_whitespace() {
        if word.starts_with(char::is_lowercase) {
            package = word;
        } else {
            names.push(format!("{package}.{word}"));
        }
    }
    names
}

/// An outermost class of the program, another one for each number below 33.
pub fn outermost(number: usize) -> String {
    let package = PACKAGES[number / THINGS.len()];
    let thing = THINGS[number % THINGS.len()];
    let role = ROLES[number % ROLES.len()];
    format!("{package}.{thing}{role}")
}

/// A nested class, every fourth one without a name of its own.
pub fn nested(encloser: &str, number: usize) -> String {
    let thing = THINGS[number % THINGS.len()];
    match number % 4 {
        0 => format!("{encloser}${number}"),
        _ => format!("{encloser}${thing}"),
    }
}

pub fn field(random: &mut Random) -> String {
    let thing = random.pick(&THINGS).to_lowercase();
    let role = random.pick(&ROLES);
    format!("{thing}{role}")
}

pub fn member(random: &mut Random) -> String {
    let verb = random.pick(&VERBS);
    let role = random.pick(&ROLES);
    let arguments = random.pick(&ARGUMENTS);
    format!("{verb}{role}{arguments}")
}
