// Classes without methods between classes with many; parameters of every primitive type; abstract and partial classes.
using System;

namespace Wide
{
    public class None1 { private None1 next; }
    public interface INone { }
    public enum ENone { }
    public struct SNone { }

    public abstract class All
    {
        public abstract void Void();
        public abstract bool Bool(bool a);
        public abstract char Char(char a);
        public abstract sbyte SByte(sbyte a);
        public abstract byte Byte(byte a);
        public abstract short Short(short a);
        public abstract ushort UShort(ushort a);
        public abstract int Int(int a);
        public abstract uint UInt(uint a);
        public abstract long Long(long a);
        public abstract ulong ULong(ulong a);
        public abstract float Float(float a);
        public abstract double Double(double a);
        public abstract string String(string a);
        public abstract object Object(object a);
        public abstract IntPtr IntPtr(IntPtr a);
        public abstract UIntPtr UIntPtr(UIntPtr a);
        public abstract decimal Decimal(decimal a);
        public abstract DateTime DateTime(DateTime a);
        public abstract Type Type(Type a);
        public abstract SNone Struct(SNone a, ref SNone b, out SNone c, SNone[] d, SNone? e);
        public abstract ENone Enum(ENone a, ref ENone b, out ENone c, ENone[] d, ENone? e);
        public abstract void Many(int a1, int a2, int a3, int a4, int a5, int a6, int a7, int a8, int a9, int a10, int a11, int a12, int a13,
            int a14, int a15, int a16, int a17, int a18, int a19, int a20, int a21, int a22, int a23, int a24, int a25, int a26, int a27);
    }

    public class None2 : None1, INone { public None2() : base() { } }
    public static class None3 { }

    public partial class Parts
    {
        partial void Hook(int n);
        public void One() { Hook(1); }
    }

    public sealed partial class Parts : IDisposable
    {
        public void Dispose() { }
        private static int two;
        public static int Two { get { return two; } set { two = value; } }
    }

    public class None4 { }
}
