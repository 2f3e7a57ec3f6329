"""The actions as swfmill names them."""

import pathlib
import re

ROOT = pathlib.Path(__file__).resolve().parent.parent.parent

# Our name of each action and swfmill's, misspelled as swfmill has it; the codes stand in docs/swf19-actions.md.
TAGS = dict(
    pair.split("=")
    for pair in """
    Add=AddCast Add2=AddTyped And=LogicalAND AsciiToChar=CHR BitAnd=AND BitLShift=ShiftLeft BitOr=OR BitRShift=ShiftRight
    BitURShift=ShiftRightUnsigned BitXor=XOR Call=CallFrame CallFunction=CallFunction CallMethod=CallMethod CastOp=CastObject
    CharToAscii=ORD CloneSprite=DuplicateSprite ConstantPool=Dictionary Decrement=Decrement DefineFunction=DeclareFunction
    DefineFunction2=DeclareFunction2 DefineLocal=SetLocalVariable DefineLocal2=DeclareLocalVariable Delete=Delete Delete2=DeleteAll
    Divide=Divide End=EndAction EndDrag=StopDrag Enumerate=Enumerate Enumerate2=EnumerateObject Equals=EqualCast Equals2=EqualTyped
    Extends=Extends GetMember=GetMember GetProperty=GetProperty GetTime=GetTimer GetUrl=GetURL GetUrl2=GetURL2 GetVariable=GetVariable
    GotoFrame=GotoFrame GotoFrame2=GotoExpression GotoLabel=GotoLabel Greater=GreaterThanTyped If=BranchIfTrue ImplementsOp=Implements
    Increment=Increment InitArray=DeclareArray InitObject=DeclareObject InstanceOf=InstanceOf Jump=BranchAlways Less=LessThanCast
    Less2=LessThanTyped MBAsciiToChar=MultibyteCHR MBCharToAscii=MultibyteORD MBStringExtract=MultibyteSubString
    MBStringLength=MultibyteStringLength Modulo=Modulo Multiply=Mulitply NewMethod=NewMethod NewObject=New NextFrame=NextFrame
    Not=LogicalNOT Or=LogicalOR Play=Play Pop=Pop PrevFrame=PreviousFrame Push=PushData PushDuplicate=Duplicate RandomNumber=Random
    RemoveSprite=RemoveSprite Return=Return SetMember=SetMember SetProperty=SetProperty SetTarget=SetTarget SetTarget2=SetTargetDynamic
    SetVariable=SetVariable StackSwap=Swap StartDrag=StartDrag Stop=Stop StopSounds=StopSound StoreRegister=StoreRegister
    StrictEquals=StrictEqual StringAdd=ConcatenateString StringEquals=StringEqual StringExtract=SubString StringGreater=StringGreaterThan
    StringLength=StringLength StringLess=StringLessThan Subtract=Substract TargetPath=GetTarget Throw=Throw ToInteger=IntegralPart
    ToNumber=DefineNumber ToString=DefineString ToggleQuality=ToggleQuality Trace=Trace Try=Try TypeOf=TypeOf WaitForFrame=WaitForFrame
    WaitForFrame2=WaitForFrameDynamic With=With
    """.split()
)
NAMES = {tag: name for name, tag in TAGS.items()}
CODES = {
    name: int(code, 16)
    for name, code in re.findall(r"^\|(\w+)\|0x(\w\w)\|", (ROOT / "docs/swf19-actions.md").read_text(), re.M)
}
