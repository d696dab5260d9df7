// Attributes on everything, enums of all sizes, structs with layouts, constants.
using System;
using System.Diagnostics;
using System.Runtime.CompilerServices;
using System.Runtime.InteropServices;

[assembly: CLSCompliant(false)]
[assembly: Marks.Mark("assembly", Level = 3)]
[module: Marks.Mark("module")]

namespace Marks
{
    [AttributeUsage(AttributeTargets.All, AllowMultiple = true, Inherited = false)]
    public sealed class MarkAttribute : Attribute
    {
        public MarkAttribute(string name, params object[] more)
        {
            Name = name;
        }

        public string Name { get; private set; }
        public int Level { get; set; }
        public Type Of;
    }

    [Flags]
    public enum Rights : ushort
    {
        None = 0,
        Read = 1,
        Write = 2,
        [Mark("all", 1, 'c', 2.5)] All = Read | Write
    }

    public enum Tiny : sbyte { Low = -128, High = 127 }
    public enum Plain { First, Second, Third }
    public enum Huge : ulong { Zero, Most = ulong.MaxValue }
    public enum Signed : long { Least = long.MinValue }

    [StructLayout(LayoutKind.Sequential, Pack = 1)]
    [Mark("struct", Of = typeof(Rights[,]))]
    public struct Header
    {
        public byte Kind;
        public int Length;
        [MarshalAs(UnmanagedType.ByValArray, SizeConst = 16)] public byte[] Key;
        [MarshalAs(UnmanagedType.ByValTStr, SizeConst = 32)] public string Title;
        [NonSerialized] public Rights Rights;
    }

    [Serializable]
    [Guid("0f8fad5b-d9cb-469f-a165-70867728950e")]
    [DebuggerDisplay("{Count}")]
    [Mark("class"), Mark("twice", Level = -1)]
    public class Marked<[Mark("parameter")] T>
    {
        public const string Text = "constant";
        public const char Letter = 'x';
        public const double Half = 0.5;
        public const Rights Default = Rights.All;
        public const Marked<T> Nothing = null;

        [Obsolete("use Count")]
        public int Size { [MethodImpl(MethodImplOptions.AggressiveInlining)] get { return Count; } }

        [Mark("field")] public int Count;

        [Conditional("TRACE")]
        [Mark("method")]
        public void Trace([Mark("argument")] [CallerMemberName] string from = null, [CallerLineNumber] int line = 0)
        {
        }

        [return: Mark("return")]
        [MethodImpl(MethodImplOptions.Synchronized | MethodImplOptions.NoInlining)]
        public Tiny Convert([In] Plain plain, [Out] Huge[] huge, [Optional] Signed signed)
        {
            return Tiny.Low;
        }

        [Mark("event")]
        public event Action<Rights?> Changed { add { } remove { } }
    }
}
