// Pointers, references, out parameters, fixed buffers, and calls into C.
using System;
using System.Runtime.InteropServices;
using System.Text;

namespace Raw
{
    public unsafe struct Packet
    {
        public fixed byte Data[64];
        public Packet* Next;
        public int Length;
    }

    [StructLayout(LayoutKind.Explicit, Size = 8)]
    public struct Either
    {
        [FieldOffset(0)] public long Whole;
        [FieldOffset(0)] public int Low;
        [FieldOffset(4)] public int High;
    }

    public unsafe class Memory
    {
        public volatile int State;
        private IntPtr start;
        private UIntPtr size;

        public void* At(int* from, byte** table, void*** all)
        {
            return from + 1;
        }

        public int Copy(byte* to, byte[] from, ref int length, out Packet* last)
        {
            fixed (byte* p = from)
            {
                for (int i = 0; i < length; i++)
                {
                    to[i] = p[i];
                }
            }
            last = null;
            return length;
        }

        public static ref int Slot(int[] slots, int i)
        {
            return ref slots[i];
        }

        public Packet*[] Many(Packet*[] some, int*[][] rows, char*[,] plane)
        {
            return some;
        }

        public IntPtr Moves(IntPtr by, UIntPtr size, ref IntPtr at, ref Either either)
        {
            return at;
        }

        public int Varied(string format, __arglist)
        {
            return new ArgIterator(__arglist).GetRemainingCount();
        }

        public Type Typed(object of, ref string text)
        {
            TypedReference reference = __makeref(text);
            return __reftype(reference);
        }

        public static int Sum(int n)
        {
            int* few = stackalloc int[4];
            for (int i = 0; i < 4; i++)
            {
                few[i] = n;
            }
            return few[0] + few[3];
        }
    }

    public interface IPeeks
    {
        int At(in int place, in DateTime since);
        ref readonly Either Last(ref Either[] all);
    }

    [UnmanagedFunctionPointer(CallingConvention.Cdecl)]
    public unsafe delegate int Compares(void* a, void* b);

    internal static unsafe class Native
    {
        [DllImport("libc", CallingConvention = CallingConvention.Cdecl)]
        internal static extern void qsort(void* at, UIntPtr count, UIntPtr size, Compares by);

        [DllImport("libc", EntryPoint = "strlen", CharSet = CharSet.Ansi, SetLastError = true)]
        internal static extern UIntPtr Length([MarshalAs(UnmanagedType.LPStr)] string text);

        [DllImport("libc")]
        [return: MarshalAs(UnmanagedType.I4)]
        internal static extern bool getcwd(StringBuilder at, [In, Out] byte[] room, out int size);
    }
}
