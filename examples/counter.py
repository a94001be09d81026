"""The classes of two examples: a base package, `runtime`, and an applet over it, `counter`; in Java, and method by method
in the mnemonics of the standard, as a compiler and a converter would lay them."""
from assembly import ABSTRACT, CONSTRUCTOR, PRIVATE, PROTECTED, PUBLIC, STATIC
from converter import ABSTRACT_CLASS, Class, Conversion, Field, Method, Unit

# ---- the base package


def plain(name, above):
    """A class with a constructor without arguments, which calls that of its superclass."""
    call = "aload_0\ninvokespecial %s.<init>\n" % above.name if above else ""
    return Class(name, above, PUBLIC, [], [Method(PUBLIC + CONSTRUCTOR, "<init>", "()V", 1, call + "return")])


def runtime():
    """Object, throwable, the exceptions that a card throws itself, one that a program throws, and the class of applets:

        public class Object {
            public boolean equals(Object other) { return this == other; }
        }
        public class UserException extends Exception {
            private static UserException instance;
            private short reason;
            public UserException(short reason) { this.reason = reason; }
            public short getReason() { return reason; }
            public void setReason(short reason) { this.reason = reason; }
            public static void throwIt(short reason) throws UserException {
                if (instance == null) instance = new UserException(reason);
                instance.setReason(reason);
                throw instance;
            }
        }
        public abstract class Applet {
            protected Applet() { }
            public boolean select() { return true; }
            public abstract void process(byte[] command);
        }
    """
    base = plain("Object", None)
    base.methods.append(Method(PUBLIC, "equals", "(LObject;)Z", 2, """
            aload_0
            aload_1
            if_acmpne differ
            sconst_1
            sreturn
          differ:
            sconst_0
            sreturn
    """))
    throwable = plain("Throwable", base)
    checked = plain("Exception", throwable)
    unchecked = plain("RuntimeException", checked)
    roles = [plain(name, unchecked) for name in (
        "NullPointerException", "ArithmeticException", "ArrayIndexOutOfBoundsException", "NegativeArraySizeException",
        "ClassCastException", "ArrayStoreException")]
    user = Class("UserException", checked, PUBLIC, [
        Field(PRIVATE + STATIC, "LUserException;", "instance"),
        Field(PRIVATE, "S", "reason"),
    ], [
        Method(PUBLIC + CONSTRUCTOR, "<init>", "(S)V", 2, """
            aload_0
            invokespecial Exception.<init>
            sload_1
            putfield_s_this UserException.reason
            return
        """),
        Method(PUBLIC, "getReason", "()S", 1, """
            getfield_s_this UserException.reason
            sreturn
        """),
        Method(PUBLIC, "setReason", "(S)V", 2, """
            sload_1
            putfield_s_this UserException.reason
            return
        """),
        Method(PUBLIC + STATIC, "throwIt", "(S)V", 3, """
            getstatic_a UserException.instance
            ifnonnull made
            new UserException
            dup
            sload_0
            invokespecial UserException.<init>
            putstatic_a UserException.instance
          made:
            getstatic_a UserException.instance
            sload_0
            invokevirtual UserException.setReason
            getstatic_a UserException.instance
            athrow
        """),
    ])
    applet = plain("Applet", base)
    applet.flags = PUBLIC + ABSTRACT_CLASS
    applet.methods[0].flags = PROTECTED + CONSTRUCTOR
    applet.methods += [
        Method(PUBLIC, "select", "()Z", 1, """
            sconst_1
            sreturn
        """),
        Method(PUBLIC + ABSTRACT, "process", "([B)V"),
    ]
    return Unit("runtime", [base, throwable, checked, unchecked, *roles, user, applet], is_exporting=True)


def runtime_package(unit):
    package = Conversion(unit).whole()
    package.roles = bytes([0, 1, *range(4, 10)])
    return package


# ---- the counter


def counters(above):
    """Counters that can be closed, that have a limit, and that are closed when they would come beyond it:

        class Counter {
            protected short value;
            private boolean isOpen;
            private byte step;
            Counter(byte step) { this.step = step; isOpen = true; }
            public void add(short times) { value += isOpen ? (short) (step * times) : 0; }
            public short getValue() { return value; }
            void close() { isOpen = false; }
        }
        class BoundedCounter extends Counter {
            short limit;
            BoundedCounter(byte step, short limit) { super(step); this.limit = limit; }
            public void add(short times) {
                short before = value;
                super.add(times);
                if (value > limit) {
                    value = before;
                    throw new CounterException(limit);
                }
            }
        }
        class ClosingCounter extends BoundedCounter {
            ClosingCounter(byte step, short limit) { super(step, limit); }
            public void add(short times) {
                boolean isAdded = false;
                try { super.add(times); isAdded = true; } finally { if (!isAdded) close(); }
            }
        }
    """
    counter = Class("Counter", above, 0, [
        Field(PRIVATE, "Z", "isOpen"),
        Field(PRIVATE, "B", "step"),
        Field(PROTECTED, "S", "value"),
    ], [
        Method(CONSTRUCTOR, "<init>", "(B)V", 2, """
            aload_0
            invokespecial Object.<init>
            sload_1
            putfield_b_this Counter.step
            sconst_1
            putfield_b_this Counter.isOpen
            return
        """),
        Method(PUBLIC, "add", "(S)V", 4, """
            aload_0
            dup
            getfield_s Counter.value
            getfield_b_this Counter.isOpen
            ifeq closed
            getfield_b_this Counter.step
            sload_1
            smul
            goto add
          closed:
            sconst_0
          add:
            sadd
            putfield_s Counter.value
            return
        """),
        Method(PUBLIC, "getValue", "()S", 1, """
            getfield_s_this Counter.value
            sreturn
        """),
        Method(0, "close", "()V", 2, """
            sconst_0
            putfield_b_this Counter.isOpen
            return
        """),
    ])
    bounded = Class("BoundedCounter", counter, 0, [Field(0, "S", "limit")], [
        Method(CONSTRUCTOR, "<init>", "(BS)V", 2, """
            aload_0
            sload_1
            invokespecial Counter.<init>
            sload_2
            putfield_s_this BoundedCounter.limit
            return
        """),
        Method(PUBLIC, "add", "(S)V", 3, """
            getfield_s_this Counter.value
            sstore_2
            aload_0
            sload_1
            invokespecial BoundedCounter.super.add
            getfield_s_this Counter.value
            getfield_s_this BoundedCounter.limit
            if_scmple fits
            sload_2
            putfield_s_this Counter.value
            new CounterException
            dup
            getfield_s_this BoundedCounter.limit
            invokespecial CounterException.<init>
            athrow
          fits:
            return
        """, variables=1),
    ])
    closing = Class("ClosingCounter", bounded, 0, [], [
        Method(CONSTRUCTOR, "<init>", "(BS)V", 3, """
            aload_0
            sload_1
            sload_2
            invokespecial BoundedCounter.<init>
            return
        """),
        Method(PUBLIC, "add", "(S)V", 2, """
            sconst_0
            sstore_2
          try:
            aload_0
            sload_1
            invokespecial ClosingCounter.super.add
            sconst_1
            sstore_2
          tried:
            sload_2
            ifne added
            aload_0
            invokevirtual Counter.close
          added:
            return
          finally:
            astore_3
          stored:
            sload_2
            ifne thrown
            aload_0
            invokevirtual Counter.close
          thrown:
            aload_3
            athrow
        """, [("try", "tried", "finally", None), ("finally", "stored", "finally", None)], variables=2),
    ])
    return [counter, bounded, closing]


def full(above):
    """What a counter throws; its reason is the negative of the limit:

        class CounterException extends UserException {
            CounterException(short limit) { super(limit); }
            public short getReason() { return (short) -super.getReason(); }
        }
    """
    return Class("CounterException", above, 0, [], [
        Method(CONSTRUCTOR, "<init>", "(S)V", 2, """
            aload_0
            sload_1
            invokespecial UserException.<init>
            return
        """),
        Method(PUBLIC, "getReason", "()S", 1, """
            aload_0
            invokespecial CounterException.super.getReason
            sneg
            sreturn
        """),
    ])


def log(above):
    """The last four values:

        class Log {
            private short[] values = new short[4];
            private byte next;
            void note(short value) {
                values[next] = value;
                next = (byte) (next < 3 ? next + 1 : 0);
            }
            short last() { return values[next > 0 ? next - 1 : 3]; }
        }
    """
    return Class("Log", above, 0, [
        Field(PRIVATE, "[S", "values"),
        Field(PRIVATE, "B", "next"),
    ], [
        Method(CONSTRUCTOR, "<init>", "()V", 2, """
            aload_0
            invokespecial Object.<init>
            bspush 4
            newarray short
            putfield_a_this Log.values
            return
        """),
        Method(0, "note", "(S)V", 3, """
            getfield_a_this Log.values
            getfield_b_this Log.next
            sload_1
            sastore
            aload_0
            getfield_b_this Log.next
            sconst_3
            if_scmpge first
            getfield_b_this Log.next
            sconst_1
            sadd
            goto set
          first:
            sconst_0
          set:
            s2b
            putfield_b Log.next
            return
        """),
        Method(0, "last", "()S", 3, """
            getfield_a_this Log.values
            getfield_b_this Log.next
            ifle first
            getfield_b_this Log.next
            sconst_1
            ssub
            goto get
          first:
            sconst_3
          get:
            saload
            sreturn
        """),
    ])


APPLET_FIELDS = [
    Field(STATIC, "[B", "STEPS", [1, 2, 5]),
    Field(STATIC, "[S", "LIMITS", [0, 20, 200]),
    Field(STATIC, "[Z", "IS_SUMMED", [True, False, True]),
    Field(STATIC, "[I", "sums", [0, 100000, -1]),
    Field(STATIC, "LCounter;", "last"),
    Field(STATIC, "Z", "isBusy"),
    Field(STATIC, "S", "commands"),
    Field(STATIC, "B", "most", 9),
    Field(STATIC, "S", "first", 1),
    Field(STATIC, "I", "total", 70000),
    Field(PRIVATE, "LLog;", "log"),
]


def applet(above):
    """The applet, with four methods that `run` and `defend` can enter:

        public class CounterApplet extends Applet {
            static final byte[] STEPS = {1, 2, 5};
            static final short[] LIMITS = {0, 20, 200};
            static final boolean[] IS_SUMMED = {true, false, true};
            static int[] sums = {0, 100000, -1};
            static Counter last;
            static boolean isBusy;
            static short commands;
            static byte most = 9;
            static short first = 1;
            static int total = 70000;
            private Log log;

            CounterApplet() { log = new Log(); }

            public static void install(byte[] data, short offset, byte length) { new CounterApplet(); }

            static Counter make(short kind) throws UserException {
                switch (kind) {
                    case 0: return new Counter(STEPS[0]);
                    case 1: return new BoundedCounter(STEPS[1], LIMITS[1]);
                    case 2: return new ClosingCounter(STEPS[2], LIMITS[2]);
                    default: UserException.throwIt(kind); return null;
                }
            }

            static short count(short kind, short times) throws UserException {
                Counter counter = make(kind);
                short value;
                isBusy = true;
                try {
                    for (short n = first; n <= (times < most ? times : most); n++) counter.add(n);
                    value = counter.getValue();
                } catch (CounterException full) {
                    value = full.getReason();
                } finally {
                    isBusy = false;
                    last = counter;
                }
                sums[kind] += value;
                total += IS_SUMMED[kind] ? value : 0;
                return value;
            }

            public void process(byte[] command) {
                commands++;
                log.note(count(command[0], command[1]));
            }

            static short answer(byte[] command) {
                CounterApplet applet = new CounterApplet();
                applet.process(command);
                return applet.log.last();
            }

            static short room(short kind) {
                Counter counter = make(kind);
                return (short) (counter instanceof BoundedCounter ? ((BoundedCounter) counter).limit : 32767);
            }
        }
    """
    end = """
            sconst_0
            putstatic_b CounterApplet.isBusy
            aload_2
            putstatic_a CounterApplet.last
    """
    return Class("CounterApplet", above, PUBLIC, APPLET_FIELDS, [
        Method(CONSTRUCTOR, "<init>", "()V", 3, """
            aload_0
            invokespecial Applet.<init>
            new Log
            dup
            invokespecial Log.<init>
            putfield_a_this CounterApplet.log
            return
        """),
        Method(PUBLIC + STATIC, "install", "([BSB)V", 2, """
            new CounterApplet
            dup
            invokespecial CounterApplet.<init>
            pop
            return
        """),
        Method(STATIC, "make", "(S)LCounter;", 5, """
            sload_0
            stableswitch other 0 2 open bounded closing
          open:
            new Counter
            dup
            getstatic_a CounterApplet.STEPS
            sconst_0
            baload
            invokespecial Counter.<init>
            areturn
          bounded:
            new BoundedCounter
            dup
            getstatic_a CounterApplet.STEPS
            sconst_1
            baload
            getstatic_a CounterApplet.LIMITS
            sconst_1
            saload
            invokespecial BoundedCounter.<init>
            areturn
          closing:
            new ClosingCounter
            dup
            getstatic_a CounterApplet.STEPS
            sconst_2
            baload
            getstatic_a CounterApplet.LIMITS
            sconst_2
            saload
            invokespecial ClosingCounter.<init>
            areturn
          other:
            sload_0
            invokestatic UserException.throwIt
            aconst_null
            areturn
        """),
        Method(STATIC, "count", "(SS)S", 6, """
            sload_0
            invokestatic CounterApplet.make
            astore_2
            sconst_1
            putstatic_b CounterApplet.isBusy
          try:
            getstatic_s CounterApplet.first
            sstore 4
          next:
            sload 4
            sload_1
            getstatic_b CounterApplet.most
            if_scmpge most
            sload_1
            goto compare
          most:
            getstatic_b CounterApplet.most
          compare:
            if_scmpgt counted
            aload_2
            sload 4
            invokevirtual Counter.add
            sinc 4 1
            goto next
          counted:
            aload_2
            invokevirtual Counter.getValue
            sstore_3
          tried:
        """ + end + """
            goto ended
          full:
            astore 4
            aload 4
            invokevirtual CounterException.getReason
            sstore_3
          caught:
        """ + end + """
            goto ended
          finally:
            astore 5
          stored:
        """ + end + """
            aload 5
            athrow
          ended:
            getstatic_a CounterApplet.sums
            sload_0
            dup2
            iaload
            sload_3
            s2i
            iadd
            iastore
            getstatic_i CounterApplet.total
            getstatic_a CounterApplet.IS_SUMMED
            sload_0
            baload
            ifeq other
            sload_3
            goto sum
          other:
            sconst_0
          sum:
            s2i
            iadd
            putstatic_i CounterApplet.total
            sload_3
            sreturn
        """, [("try", "tried", "full", "CounterException"), ("try", "tried", "finally", None),
              ("full", "caught", "finally", None), ("finally", "stored", "finally", None)], variables=4),
        Method(PUBLIC, "process", "([B)V", 4, """
            getstatic_s CounterApplet.commands
            sconst_1
            sadd
            putstatic_s CounterApplet.commands
            getfield_a_this CounterApplet.log
            aload_1
            sconst_0
            baload
            aload_1
            sconst_1
            baload
            invokestatic CounterApplet.count
            invokevirtual Log.note
            return
        """),
        Method(STATIC, "answer", "([B)S", 2, """
            new CounterApplet
            dup
            invokespecial CounterApplet.<init>
            astore_1
            aload_1
            aload_0
            invokevirtual CounterApplet.process
            aload_1
            getfield_a CounterApplet.log
            invokevirtual Log.last
            sreturn
        """, variables=1),
        Method(STATIC, "room", "(S)S", 1, """
            sload_0
            invokestatic CounterApplet.make
            astore_1
            aload_1
            instanceof object BoundedCounter
            ifeq unbounded
            aload_1
            checkcast object BoundedCounter
            getfield_s BoundedCounter.limit
            goto end
          unbounded:
            sspush 32767
          end:
            sreturn
        """, variables=1),
    ])


def counter_package(base):
    """The package over the base package, with a Debug component and a custom one."""
    classes = {one.name: one for one in base.classes}
    own = [*counters(classes["Object"]), full(classes["UserException"]), log(classes["Object"]), applet(classes["Applet"])]
    conversion = Conversion(Unit("counter", own, [base]))
    package = conversion.whole()
    package.applets = [(package.aid + bytes([1]), conversion.offset_of(own[-1], own[-1].methods[1]))]
    package.debug = conversion.debug()
    package.customs = {129: (package.aid + bytes([2]), b"made by hand")}
    return package
