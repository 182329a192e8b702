;;;; Datagrams: the mark, the version and packets. docs/PROTOCOL.md: "Datagrams", "Version 2".

(in-package :chaosnet)

(defconstant +front-size+ 4 "The octets of the mark and the version.")
(defconstant +most-packets+ 8)
(defconstant +most-bundle+ 2020 "The octets of the greatest datagram of version 2.")
(defconstant +most-sent+ 1472 "The octets of the greatest that is sent, in one Ethernet frame.")
(defconstant +most-datagram+ 2048 "The octets of a buffer for any datagram.")

(defun packet-size (packet) (size-with (length (pkt-data packet))))

(defun datagram (version packets)
  "PACKETS as the octets of a datagram of this version."
  (let ((octets (make-octets (+ +front-size+ (reduce #'+ packets :key #'packet-size))))
        (at +front-size+))
    (replace octets (list #x43 #x48 version (if (= version 1) 0 (length packets))))
    (dolist (packet packets octets)
      (setf at (write-packet packet octets at)))))

(defun front-count (packets)
  "How many of the first of PACKETS, which go to one host, are sent in a datagram of version 2."
  (loop with size = +front-size+
        for packet in packets
        for before below +most-packets+
        while (and (= (pkt-to packet) (pkt-to (first packets)))
                   (<= (incf size (packet-size packet)) +most-sent+))
        count t))

(defun send-packets (packets version send)
  "Calls SEND with the address and the octets of each datagram that PACKETS, in order, fill."
  (loop while packets
        do (let ((count (if (= version 1) 1 (front-count packets))))
             (funcall send (pkt-to (first packets)) (datagram version (subseq packets 0 count)))
             (setf packets (nthcdr count packets)))))

(defun packets-in (octets start end number named)
  "The NUMBER packets from START to END of OCTETS, and nothing more; or nil, and the fault.
NAMED tells a fault with the place of its packet."
  (let ((words-end (- end (mod (- end start) 2))) ; a last odd octet is no word
        (packets '()))
    (dotimes (i number)
      (multiple-value-bind (packet next) (read-packet octets start words-end)
        (unless packet (return-from packets-in (values nil (funcall named (1+ i) next))))
        (push packet packets)
        (setf start next)))
    (if (= start end) (nreverse packets) (values nil "5 Trailing"))))

(defun datagram-packets (octets size)
  "The packets of the datagram in the first SIZE of OCTETS; or nil, and why it is refused."
  (flet ((at-packet (place fault) (join "8 PacketAt " (decimal place) " " fault))
         (of-packet (place fault) (declare (ignore place)) (join "4 Packet " fault)))
    (cond ((< size +front-size+) (values nil "1 Short"))
          ((mismatch #(#x43 #x48) octets :end2 2) (values nil "2 BadMark"))
          ((not (mismatch #(1 0) octets :start2 2 :end2 4))
           (packets-in octets +front-size+ size 1 #'of-packet))
          ((/= 2 (aref octets 2)) (values nil "3 BadVersion"))
          ((not (<= 1 (aref octets 3) +most-packets+)) (values nil "6 BadNumber"))
          ((> size +most-bundle+) (values nil "7 TooLong"))
          (t (packets-in octets +front-size+ size (aref octets 3) #'at-packet)))))
