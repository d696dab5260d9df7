// Interfaces, several of them in one class, explicit implementations, interfaces that extend others.
using System;
using System.Collections;
using System.Collections.Generic;

namespace Ports
{
    public interface INamed
    {
        string Name { get; set; }
    }

    public interface IOpens : INamed
    {
        bool Open(string mode);
        event EventHandler Opened;
    }

    public interface ICloses : INamed, IDisposable
    {
        void Close();
        int this[string key] { get; set; }
    }

    public interface IMoves<TFrom, TTo>
    {
        TTo Move(TFrom from);
    }

    internal interface IHidden
    {
        void Hide();
    }

    public abstract class Port : IOpens, ICloses, IHidden
    {
        private string name;

        public abstract string Name { get; set; }

        string INamed.Name
        {
            get { return name; }
            set { name = value; }
        }

        public virtual bool Open(string mode)
        {
            if (Opened != null)
            {
                Opened(this, EventArgs.Empty);
            }
            return mode != null;
        }

        public event EventHandler Opened;

        void ICloses.Close()
        {
            name = null;
        }

        int ICloses.this[string key]
        {
            get { return key.Length; }
            set { name = key + value; }
        }

        void IHidden.Hide()
        {
        }

        void IDisposable.Dispose()
        {
        }
    }

    public class Serial : Port, IEnumerable<byte>, ICloneable, IMoves<byte[], string>, IMoves<string, byte[]>
    {
        public override string Name { get; set; }

        public IEnumerator<byte> GetEnumerator()
        {
            yield return 1;
            yield return 2;
        }

        IEnumerator IEnumerable.GetEnumerator()
        {
            return GetEnumerator();
        }

        object ICloneable.Clone()
        {
            return MemberwiseClone();
        }

        string IMoves<byte[], string>.Move(byte[] from)
        {
            return from.Length.ToString();
        }

        byte[] IMoves<string, byte[]>.Move(string from)
        {
            return new byte[from.Length];
        }
    }

    public struct Handle : IEquatable<Handle>, IComparable, IComparable<Handle>, IFormattable
    {
        public int Number;

        public bool Equals(Handle other)
        {
            return Number == other.Number;
        }

        public int CompareTo(object other)
        {
            return CompareTo((Handle) other);
        }

        public int CompareTo(Handle other)
        {
            return Number.CompareTo(other.Number);
        }

        public string ToString(string format, IFormatProvider provider)
        {
            return Number.ToString(format, provider);
        }
    }
}
