// Operators, conversions, indexers, properties with their own flags, optional parameters.
using System;

namespace Sums
{
    public struct Ratio : IEquatable<Ratio>
    {
        public readonly long Top, Bottom;

        public Ratio(long top, long bottom = 1)
        {
            Top = top;
            Bottom = bottom;
        }

        public static Ratio operator +(Ratio a, Ratio b) { return new Ratio(a.Top * b.Bottom + b.Top * a.Bottom, a.Bottom * b.Bottom); }
        public static Ratio operator -(Ratio a, Ratio b) { return a + -b; }
        public static Ratio operator -(Ratio a) { return new Ratio(-a.Top, a.Bottom); }
        public static Ratio operator *(Ratio a, Ratio b) { return new Ratio(a.Top * b.Top, a.Bottom * b.Bottom); }
        public static Ratio operator /(Ratio a, Ratio b) { return new Ratio(a.Top * b.Bottom, a.Bottom * b.Top); }
        public static Ratio operator %(Ratio a, int b) { return new Ratio(a.Top % (a.Bottom * b), a.Bottom); }
        public static Ratio operator ++(Ratio a) { return a + new Ratio(1); }
        public static Ratio operator --(Ratio a) { return a - new Ratio(1); }
        public static Ratio operator <<(Ratio a, int by) { return new Ratio(a.Top << by, a.Bottom); }
        public static Ratio operator >>(Ratio a, int by) { return new Ratio(a.Top, a.Bottom << by); }
        public static bool operator <(Ratio a, Ratio b) { return (a - b).Top < 0; }
        public static bool operator >(Ratio a, Ratio b) { return b < a; }
        public static bool operator ==(Ratio a, Ratio b) { return a.Equals(b); }
        public static bool operator !=(Ratio a, Ratio b) { return !a.Equals(b); }
        public static bool operator true(Ratio a) { return a.Top != 0; }
        public static bool operator false(Ratio a) { return a.Top == 0; }
        public static Ratio operator !(Ratio a) { return new Ratio(a.Bottom, a.Top); }

        public static implicit operator Ratio(int number) { return new Ratio(number); }
        public static implicit operator Ratio?(string text) { return null; }
        public static explicit operator double(Ratio a) { return (double) a.Top / a.Bottom; }
        public static explicit operator decimal[](Ratio a) { return new[] { (decimal) a.Top, (decimal) a.Bottom }; }

        public bool Equals(Ratio other) { return Top * other.Bottom == other.Top * Bottom; }
        public override bool Equals(object other) { return other is Ratio && Equals((Ratio) other); }
        public override int GetHashCode() { return (Top / Bottom).GetHashCode(); }
    }

    public class Table
    {
        private readonly Ratio[,] cells = new Ratio[8, 8];

        public Ratio this[int row, int column]
        {
            get { return cells[row, column]; }
            set { cells[row, column] = value; }
        }

        public Ratio[] this[string name]
        {
            get { return new Ratio[name.Length]; }
        }

        protected internal virtual string this[params object[] keys]
        {
            get { return keys.ToString(); }
            private set { }
        }

        public int Width { get { return 8; } }
        public int Height { get; protected set; } = 8;
        public static Table Empty { get; } = new Table();
        internal bool Dirty { private get; set; }

        public Ratio Sum(int from = 0, int to = 8, string name = "sum", double? scale = null, DayOfWeek day = DayOfWeek.Monday)
        {
            Ratio sum = 0;
            for (int i = from; i < to; i++)
            {
                sum += this[i, i];
            }
            return sum;
        }

        ~Table()
        {
        }

        static Table()
        {
        }
    }
}
